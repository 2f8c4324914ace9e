(ns jepmon.conformance-test
  "Runs the scenarios of clients/conformance, whose words clients/README.md explains."
  (:require [clojure.java.io :as io]
            [clojure.string :as str]
            [clojure.test :refer [deftest is]]
            [jepmon.live :as live])
  (:import (jepmon Monitor Operation Verdict)))

(def table (io/file (System/getProperty "jepmon.conformance" "../conformance")))

(defn scenarios []
  (->> (str/split-lines (slurp (io/file table "scenarios.txt")))
       (remove #(or (str/blank? %) (str/starts-with? % "#")))
       (map #(str/split (str/trim %) #" +"))
       (reduce (fn [all words] (if (= "scenario" (first words)) (conj all [words]) (conj (pop all) (conj (peek all) words)))) [])))

;; The minor version of the program, and the one that a scenario needs, or 0.
(def minor
  (let [program (or (System/getenv "JEPMON") (str (io/file table "../../dist/jepmon")))
        said (slurp (.getInputStream (.start (ProcessBuilder. ^java.util.List [program "--version"]))))]
    (parse-long (second (re-find #"^jepmon \d+\.(\d+)" said)))))

(defn since [scenario] (parse-long (or (some (fn [[word number]] (when (= "since" word) number)) scenario) "0")))

(defn option [words name] (parse-long (or (second (drop-while #(not= name %) words)) "0")))

(defn options-of [scenario wait?]
  (reduce (fn [opts [word value]]
            (case word
              "model" (assoc opts :model value)
              ("concurrency" "budget" "initial" "timeout") (assoc opts (keyword word) (parse-long value))
              "by-ends" (assoc opts :by-ends? true)
              "unknown" (assoc opts :go-on? true)
              "program" (assoc opts :program (.getCanonicalPath (io/file table "programs" value)))
              opts))
          {:wait? wait?} scenario))

(defn use-words [^Monitor m [word & more]]
  (let [numbers (map parse-long more)]
    (case word
      "reset" (.reset m)
      "begin" (.begin m (int (first numbers)) (long (second numbers)))
      (live/begin-operation m (into [(keyword word)] numbers)))))

(defn rejected? [m words]
  (try (use-words m words) false
       (catch IllegalArgumentException _ true)
       (catch IllegalStateException _ true)))

(defn clients
  "Has threads write and read a store, which may lose some writes."
  [m words]
  (let [store (atom {:writes 0})
        [operations keys loses] (map #(option words %) ["operations" "keys" "loses"])
        put (fn [s k v] (let [n (inc (:writes s))]
                          (cond-> (assoc s :writes n) (or (zero? loses) (pos? (mod n loses))) (assoc k v))))
        client (fn [c]
                 (dotimes [i operations]
                   (let [k (mod (+ (* c 7) (quot i 2)) keys)]
                     (if (even? i)
                       (live/operation m [:write k (+ (* c operations) i)] #(do (swap! store put k (+ (* c operations) i)) nil))
                       (live/operation m [:read k] #(hash-map :value (get @store k)))))))]
    (->> (range (option words "clients"))
         (mapv (fn [c] (future (try (client c) nil (catch Verdict v v)))))
         (keep deref)
         doall
         (run! #(throw %)))))

(defn parts
  "Has one history after another. JEPMON_PARTS=\"20 500000\" makes it ten million operations."
  [^Monitor m words]
  (let [more (some-> (System/getenv "JEPMON_PARTS") (str/split #" "))
        [parts operations] (if more (map parse-long more) (map #(option words %) ["parts" "operations"]))]
    (dotimes [_ parts]
      (loop [i 0]
        (when (< i operations)
          (let [k (int (mod (quot i 2) 64))]
            (.ok (.write m k i))
            (.value (.read m k) i)
            (recur (+ i 2)))))
      (.reset m))))

(defn act [m operations words]
  (let [[word a & more] words
        ^Operation operation (get operations a)]
    (case word
      "invoke" (assoc operations a (use-words m more))
      "rejected" (do (assert (rejected? m (rest words)) words) operations)
      ("reset" "begin") (do (use-words m words) operations)
      "clients" (do (clients m words) operations)
      "parts" (do (parts m words) operations)
      ("ok" "fail" "info") (do (live/end-operation operation (keyword word)) operations)
      "missing" (do (live/end-operation operation {:value nil}) operations)
      "value" (do (live/end-operation operation {:value (parse-long (first more))}) operations)
      "values" (do (live/end-operation operation {:values (map parse-long more)}) operations)
      operations)))

(defn reply
  "The reply of the verdict, the counts, and the text of the verdict."
  [scenario wait?]
  (let [m (try (live/start (options-of scenario wait?)) (catch Verdict v v))]
    (if (instance? Verdict m)
      [(.reply ^Verdict m) {} (.getMessage ^Verdict m)]
      (try
        (try (reduce #(act m %1 %2) {} scenario) (catch Verdict _ nil))
        (let [r (live/result m)] [(:verdict r) (:counts r) (:cause r)])
        (finally (live/result m))))))

(defn fault [scenario wait?]
  (let [[reply counts text] (reply scenario wait?)]
    (first (for [[word a b c :as words] scenario
                 :let [wrong (case word
                               "expect" (let [want (if (and c (not= "refused" a)) (str a " key " b " index " c) a)
                                              more (if (= "refused" a) (str/join " " (drop 2 words)) "")]
                                          (not (and (str/starts-with? reply want) (str/includes? reply more))))
                               "says" (not (str/includes? (str text) (str/join " " (rest words))))
                               "count" (not= (parse-long c) (get counts (str a " " b) 0))
                               false)]
                 :when wrong]
             (str (str/join " " words) ": it is " reply " " counts)))))

(deftest scenarios-of-the-table
  (doseq [scenario (scenarios), wait? [false true]
          :when (and (<= (since scenario) minor) (not (and wait? (some #{["waiting" "no"]} scenario))))
          :let [name (str (second (first scenario)) (when wait? "_waiting"))
                wrong (try (fault scenario wait?) (catch Throwable e (str e)))]]
    (println (str "conformance " name ": " (if wrong (str "FAILED: " wrong) "ok")))
    (is (nil? wrong) name)))
