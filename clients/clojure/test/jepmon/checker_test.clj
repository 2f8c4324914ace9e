(ns jepmon.checker-test
  (:require [clojure.string :as str]
            [clojure.test :refer [deftest is]]
            [jepmon.checker :as jepmon]
            [jepsen.checker :as checker]))

(defrecord Op [index time type process f value]) ; as jepsen.history.Op of 0.3

(defn history [& ops]
  (vec (map-indexed (fn [i [type process f value]] (->Op i (* i 1000) type process f value)) ops)))

(defn tuple [k v] (clojure.lang.MapEntry. k v)) ; as jepsen.independent/tuple

(defn check [opts & ops] (checker/check (jepmon/linearizable opts) {} (apply history ops) {}))

(deftest legal
  (let [r (check {:model :register}
                 [:invoke 0 :write (tuple 7 3)] [:info :nemesis :start nil] [:invoke 1 :read (tuple 7 nil)]
                 [:ok 0 :write (tuple 7 3)] [:ok 1 :read (tuple 7 3)])]
    (is (true? (:valid? r)) r)))

(deftest illegal
  (let [r (check {:model :register}
                 [:invoke 0 :write (tuple "x" 1)] [:ok 0 :write (tuple "x" 1)] [:info :nemesis :start "kill"]
                 [:invoke 0 :write (tuple "x" 2)] [:ok 0 :write (tuple "x" 2)] [:invoke 1 :read (tuple "x" nil)] [:ok 1 :read (tuple "x" 1)])]
    (is (false? (:valid? r)) r)
    (is (= [5 6 :read] [(:index r) (:jepsen-index r) (:f (:op r))]) r)
    (is (= 1 (count (:failures r))) r)
    (is (re-find #"could not hold 1 any more" (:cause r)))))

(deftest one-key
  (let [r (check {:model :cas-register :key 0}
                 [:invoke 0 :write 1] [:ok 0 :write 1] [:invoke 1 :cas [1 2]] [:ok 1 :cas [1 2]] [:invoke 0 :read nil] [:ok 0 :read 1])]
    (is (false? (:valid? r)) r)))

(deftest refused
  (let [r (check {:model :register} [:invoke 0 :txn [[:append 1 2]]] [:ok 0 :txn [[:append 1 2]]])]
    (is (= :unknown (:valid? r)) r)
    (is (string? (:error r)) r)))

(deftest no-judge
  (let [r (check {:model :register :program "/no/such/judge"} [:invoke 0 :write (tuple 7 3)])]
    (is (= :unknown (:valid? r)) r)
    (is (str/includes? (:error r) "/no/such/judge") r)))

(deftest words-and-status-agree
  (is (true? (:valid? (jepmon/result 0 "legal\n" "" "out"))))
  (doseq [[exit out] [[0 ""] [0 "illegal key 1 index 2\n"] [2 "legal\n"] [3 "refused 1\n"] [137 "legal\n"] [0 "key 1 model"]]]
    (is (= :unknown (:valid? (jepmon/result exit out "why" "out"))) [exit out])
    (is (:error (jepmon/result exit out "why" "out")) [exit out])))
