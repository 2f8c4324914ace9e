package jepmon;

import java.util.HashSet;
import java.util.Set;

/**
 * The messages of fifo queues. The kind wide-fifo-queue is over as soon as two enqueues of one value have not failed. Such a queue is judged
 * by its ends instead, from its second enqueue of the value on.
 */
final class Messages {
    /** It is said if such a queue is over its budget. */
    static final String EQUAL = ". Two enqueues of one value have not failed, so the queue is judged by its ends: give each message a value of its own";

    private record Message(int key, String value) {}

    private final Program program;
    private final Set<Message> sent = new HashSet<>(); // and have not failed

    Messages(Program program) {
        this.program = program;
    }

    /** Whether the key is to be judged by its ends from this operation on, which begins. */
    boolean begins(String name, int key, String value) {
        if (!name.equals("enqueue") || !program.kind.equals(Model.FIFO_QUEUE.wide) || program.byEnds.contains(key)) return false;
        return !sent.add(new Message(key, value)) && program.byEnds.add(key);
    }

    /** The operation has failed. */
    void fails(String name, int key, String value) {
        if (name.equals("enqueue")) sent.remove(new Message(key, value));
    }

    /** Begins a new history: no key is judged by its ends. */
    void forget() {
        sent.clear();
        program.byEnds.clear();
    }
}
