package jepmon;

import java.util.Set;

/** The kind of object that each key is, and its operations. */
public enum Model {
    REGISTER("register", "wide-register", "read", "write"),
    CAS_REGISTER("cas-register", "wide-cas-register", "read", "write", "cas"),
    MUTEX("mutex", null, "acquire", "release"),
    FIFO_QUEUE("fifo-queue", "wide-fifo-queue", "enqueue", "dequeue"),
    UNORDERED_QUEUE("unordered-queue", "wide-unordered-queue", "enqueue", "dequeue"),
    SET("set", "wide-set", "add", "read");

    final String word;
    /** The program's second kind of the same object, of which fewer outcomes count against the budget; null if it has none. */
    final String wide;
    final Set<String> operations;

    Model(String word, String wide, String... operations) {
        this.word = word;
        this.wide = wide;
        this.operations = Set.of(operations);
    }

    boolean isRegister() {
        return this == REGISTER || this == CAS_REGISTER;
    }

    /** The model of this word, as {@code "cas-register"}, or of its kind, as {@code "wide-register"}. */
    public static Model of(String word) {
        for (Model model : values()) {
            if (model.word.equals(word) || word.equals(model.wide)) return model;
        }
        throw new IllegalArgumentException("there is no model " + word);
    }
}
