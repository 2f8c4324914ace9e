(ns jepsen.checker
  "The protocol of jepsen.checker 0.3 and no more: for tests on a machine without Jepsen.")

(defprotocol Checker
  (check [checker test history opts]))
