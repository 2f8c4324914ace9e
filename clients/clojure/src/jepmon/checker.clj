(ns jepmon.checker
  "A Jepsen checker that has jepmon-judge judge a history after the test. Its verdict is that of the proved program.

    (jepmon.checker/linearizable {:model :cas-register})          ; values are tuples of jepsen.independent: no independent/checker
    (jepmon.checker/linearizable {:model :register, :key 0})      ; values are plain"
  (:require [clojure.edn :as edn]
            [clojure.java.io :as io]
            [clojure.java.shell :refer [sh]]
            [clojure.string :as str]
            [jepsen.checker :as checker])
  (:import (java.io File)
           (java.nio.file Files)
           (java.nio.file.attribute FileAttribute)))

(defn- executable? [^File file] (and (.isFile file) (.canExecute file)))

(defn- above
  "The folders above a file."
  [^File file]
  (take-while some? (rest (iterate #(some-> ^File % .getParentFile) (.getAbsoluteFile file)))))

(defn- own-file
  "The file of this namespace; nil if it lies in a jar."
  []
  (let [source (io/resource "jepmon/checker.clj")]
    (when (= "file" (some-> source .getProtocol)) (io/file source))))

(defn judge
  "The path of jepmon-judge: JEPMON_JUDGE names it, or it lies beside the program that JEPMON names or in its clone, or in the clone of
  this library, or it is on the PATH."
  []
  (let [named (System/getenv "JEPMON_JUDGE")
        program (System/getenv "JEPMON")
        folders (concat (when program (take 2 (above (io/file program)))) (some-> (own-file) above))]
    (or (when-not (contains? #{nil "" "no"} named) named)
        (some #(when (executable? (io/file % "jepmon-judge")) (str (io/file % "jepmon-judge"))) folders)
        "jepmon-judge")))

(defn- folder
  "Where the history and the report are kept: below the test's store, if jepsen.store is there or :jepmon/dir names a folder, else a
  temporary folder."
  [test opts]
  (let [path (try (requiring-resolve 'jepsen.store/path!) (catch Exception _ nil))
        named (or (:jepmon/dir opts) (:jepmon/dir test))]
    (cond
      named (doto (apply io/file named (concat (:subdirectory opts) ["jepmon"])) .mkdirs)
      (and path (:name test)) (doto (io/file (.getParentFile ^File (path test (:subdirectory opts) "jepmon" "x")) ".") .mkdirs)
      :else (.toFile (Files/createTempDirectory "jepmon" (make-array FileAttribute 0))))))

(defn write-history!
  "Writes a history to a file, one operation a line; records as maps."
  [file history]
  (with-open [writer (io/writer file)]
    (binding [*out* writer *print-length* nil *print-level* nil *print-namespace-maps* false]
      (doseq [op history]
        (prn (cond-> (select-keys op [:index :time :type :process :f :value :error])
               (map-entry? (:value op)) (update :value vec)))))))

(defn- key-of
  "What a line of the report says of a key; nil of any other line."
  [line]
  (when-let [[_ k model events status at]
             (re-matches #"key (\d+) model (\S+) budget \d+ events (\d+) status (\S+)(?: (\d+))?" line)]
    {:key (parse-long k) :model (keyword (str/replace model #"^wide-" "")) :kind (keyword model) :events (parse-long events)
     :status (keyword status) :index (some-> at parse-long)}))

(defn- event
  "The event of this index in the history that was judged."
  [file index]
  (with-open [reader (io/reader file)]
    (edn/read-string {:default (fn [_ value] value)} (nth (remove #(str/starts-with? % "#_") (line-seq reader)) index))))

(defn- finding
  "The event from which the history is illegal, and the cause in words."
  [judged index]
  (let [op (event (io/file judged "history.edn") index)
        cause (io/file judged "cause.txt")]
    {:op op
     :jepsen-index (:jepsen-index op)
     :cause (when (.exists cause) (slurp cause))}))

(defn- words-of [{:keys [model key budget by-ends jobs nil-is-absent initial decide-seconds wide-seconds]}]
  (cond-> []
    model (into ["--model" (name model)])
    key (into ["--key" (str key)])
    budget (into ["--budget" (str budget)])
    jobs (into ["--jobs" (str jobs)])
    initial (into ["--initial" (str initial)])
    (or decide-seconds wide-seconds) (into ["--decide-seconds" (str (or decide-seconds wide-seconds))])
    by-ends (conj "--by-ends")
    nil-is-absent (conj "--nil-is-absent")))

(def verdicts
  "What a status of jepmon-judge is called, and Jepsen's :valid? for it. A refusal says nothing of the store."
  {0 ["legal" true], 1 ["illegal" false], 2 ["unknown" :unknown]})

(defn result
  "Jepsen's map for what jepmon-judge has said. The last line and the status have to agree."
  [exit out err judged]
  (let [lines (str/split-lines out)
        line (last lines)
        [word valid?] (verdicts exit)
        agree? (and word (= word (first (str/split (or line "") #" "))))
        all (keep key-of lines)
        [_ k index] (re-find #"key (\d+) index (\d+)" (or line ""))]
    (cond-> {:valid? (if agree? valid? :unknown), :verdict line, :key-count (count all), :jepmon-dir (str judged)}
      (not agree?) (assoc :error (str "jepmon-judge gave no verdict, with status " exit ": " (str/trim err)))
      (and agree? k) (assoc :key (parse-long k) :index (parse-long index))
      (and agree? (= 1 exit)) (merge (finding judged (parse-long index)))
      (and agree? (#{1 2} exit)) (assoc :failures (filterv #(#{:dead :dead-by} (:status %)) all)
                                        :unknown (filterv #(#{:over :ordered} (:status %)) all)))))

(defrecord Linearizable [opts]
  checker/Checker
  (check [_ test history copts]
    (let [dir (folder test copts)
          given (io/file dir "jepsen.edn")
          judged (io/file dir "judged")]
      (write-history! given history)
      (try
        (let [{:keys [exit out err]} (apply sh (or (:program opts) (judge)) (str given) "--out" (str judged) (words-of opts))]
          (result exit out err judged))
        (catch java.io.IOException e
          {:valid? :unknown, :error (str "jepmon-judge can't be run: " (.getMessage e)), :jepmon-dir (str dir)})))))

(defn linearizable
  "A checker. Options: :model, which jepmon-judge else finds out; :key, if values are no tuples; :budget, :by-ends, :jobs, :initial,
  :nil-is-absent and :decide-seconds (formerly :wide-seconds) as those of jepmon-judge; :program, its path.

  The result has :valid? (true, false or :unknown), :verdict (the last line of the report), :key-count, :failures, :unknown and
  :jepmon-dir, the folder of all that came of it. If :valid? is false, also :key, :index, :op (the first event after which the history
  is not linearizable), :jepsen-index and :cause. If the history was refused, :error says why."
  ([] (linearizable {}))
  ([opts] (->Linearizable opts)))
