(ns jepmon.live-test
  (:require [clojure.test :refer [deftest is]]
            [jepmon.live :as live]
            [jepsen.checker :as checker])
  (:import (java.util.concurrent TimeoutException)
           (jepmon Verdict)))

(deftest operations
  (live/with-monitor [m {:model :register, :concurrency 1}]
    (live/operation m [:write 7 3] (constantly nil))
    (is (= {:value 3} (live/operation m [:read 7] (constantly {:value 3}))))
    (live/operation m [:write 7 4] (constantly :fail))
    (is (thrown? TimeoutException (live/operation m [:write 7 5] #(throw (TimeoutException.)))))
    (live/operation m [:read 7] (constantly {:value 5}))
    (is (= {"write ok" 1, "write fail" 1, "write info" 1, "read ok" 2} (live/counts m)))))

(deftest verdict
  (is (thrown-with-msg? Verdict #"illegal key 7 index 5"
                        (live/with-monitor [m {}]
                          (live/operation m [:write 7 3] (constantly nil))
                          (live/operation m [:read 7] (constantly {:value nil}))))))

(deftest client-and-checker
  (let [m (live/start {:model :cas-register})
        invoke (fn [f value type answer] (live/invoke m {} {:f f :value [7 value]} #(assoc % :type type :value [7 answer])))]
    (is (= :ok (:type (invoke :write 1 :ok 1))))
    (invoke :cas [1 2] :ok [1 2])
    (invoke :cas [5 6] :fail [5 6])
    (invoke :read nil :info nil)
    (invoke :read nil :ok 2)
    (is (true? (:valid? (checker/check (live/checker m) {} [] {})))))
  (let [m (live/start {})]
    (live/operation m [:write 7 1] (constantly :info))
    (live/operation m [:read 7] (constantly {:value 2}))
    (let [r (live/result m)]
      (is (= [false 7 5] [(:valid? r) (:key r) (:index r)]) r))))
