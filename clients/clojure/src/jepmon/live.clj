(ns jepmon.live
  "Judges a test while it runs, by the library for Java (jepmon.jar).

    (with-monitor [m {:model :register}]
      (operation m [:write 7 3] #(put! store 7 3))          ; ends as ok, or by what the function returns
      (operation m [:read 7] #(hash-map :value (get-value store 7))))

  with-monitor throws a jepmon.Verdict if the history is not legal. In a Jepsen test, `invoke` wraps what a client does, and `checker`
  gives the verdict."
  (:require [jepsen.checker :as jepsen])
  (:import (java.nio.file Path)
           (java.time Duration)
           (jepmon Model Monitor Operation Options Verdict)))

(defn options
  "The options of a monitor. Keys: :model, :concurrency, :budget, :by-ends?, :wait?, :initial, :go-on?, :timeout (seconds), :program, :out."
  ^Options [{:keys [model concurrency budget by-ends? wait? initial go-on? timeout program out]}]
  (cond-> (Options/of (Model/of (name (or model :register))))
    concurrency (.concurrency (int concurrency))
    budget (.budget (int budget))
    by-ends? .byEnds
    wait? .waiting
    initial (.initial (long initial))
    go-on? .goOn
    timeout (.timeout (Duration/ofSeconds (long timeout)))
    program (.program (str program))
    out (.out (Path/of (str out) (make-array String 0)))))

(defn start
  "Starts a monitor. A jepmon.Verdict says why the program can't be used."
  ^Monitor [opts]
  (Monitor/start (options opts)))

(defmacro with-monitor
  "Runs the body with a monitor, and closes it: the verdict is thrown, if it is not legal."
  [[name opts] & body]
  `(with-open [~(with-meta name {:tag 'jepmon.Monitor}) (start ~opts)]
     ~@body))

(defn begin-operation
  "Begins an operation: [:read k], [:write k v], [:cas k old new], [:add k v], [:enqueue k v], [:dequeue k], [:acquire k], [:release k]."
  ^Operation [^Monitor m [f k & [a b]]]
  (let [k (int k)]
    (case f
      :read (.read m k)
      :write (.write m k (long a))
      :cas (.cas m k (long a) (long b))
      :add (.add m k (long a))
      :enqueue (.enqueue m k (long a))
      :dequeue (.dequeue m k)
      :acquire (.acquire m k)
      :release (.release m k))))

(defn end-operation
  "Ends an operation by :fail, :info, {:value v}, {:values vs}, or anything else, which is ok. A :value of nil is a missing key, or an
  empty queue."
  [^Operation operation outcome]
  (cond
    (= :fail outcome) (.fail operation)
    (= :info outcome) (.info operation)
    (and (map? outcome) (contains? outcome :value)) (.value operation (some-> (:value outcome) long))
    (and (map? outcome) (contains? outcome :values)) (.values operation (mapv long (:values outcome)))
    :else (.ok operation)))

(defn operation
  "Does an operation by the function, which returns how it ended (see end-operation). After an exception its outcome is unknown, and
  the exception goes on."
  [m what work]
  (with-open [operation (begin-operation m what)]
    (let [outcome (work)]
      (end-operation operation outcome)
      outcome)))

(defn counts
  "How many operations ended how: {\"write ok\" 3}."
  [^Monitor m]
  (into {} (.counts m)))

;; --- Jepsen ---

(defn- what
  "The operation of a Jepsen op whose value is [key value], or a value if there is one key."
  [one-key {:keys [f value]}]
  (let [[k v] (if one-key [one-key value] value)]
    (case f
      :cas [f k (first v) (second v)]
      (:read :dequeue :acquire :release) [f k]
      [f k v])))

(defn invoke
  "Has a Jepsen client do an op, and the monitor judge it: `work` takes the op and returns its completion. The verdict is thrown in the
  thread of the client. Options: :key, if values are no tuples."
  [m opts op work]
  (with-open [operation (begin-operation m (what (:key opts) op))]
    (let [done (work op)
          answer (if (:key opts) (:value done) (second (:value done)))]
      (case (:type done)
        :fail (.fail operation)
        :info (.info operation)
        :ok (cond
              (set? answer) (.values operation (mapv long answer))
              (#{:read :dequeue} (:f op)) (.value operation (some-> answer long))
              :else (.ok operation)))
      done)))

(defn result
  "Jepsen's map for the verdict of a monitor, which it closes."
  [^Monitor m]
  (try
    (.close m)
    {:valid? true, :verdict "legal", :counts (counts m)}
    (catch Verdict v
      (cond-> {:valid? (if (= "illegal" (.status v)) false :unknown), :verdict (.reply v), :cause (.getMessage v), :counts (counts m)}
        (not= "refused" (.status v)) (assoc :key (.key v) :index (.index v))
        (= "refused" (.status v)) (assoc :error (.reply v))))))

(defrecord Live [monitor]
  jepsen/Checker
  (check [_ _test _history _opts] (result monitor)))

(defn checker
  "A Jepsen checker for a monitor that has judged the test while it ran."
  [monitor]
  (->Live monitor))
