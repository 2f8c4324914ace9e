package jepmon;

import java.util.Collection;
import java.util.TreeSet;

/**
 * An operation that has begun. It ends by one of ok, value, values, fail and info, which throw the Verdict that has ended the test.
 * If it is closed without an end, as by an exception, its outcome is unknown.
 */
public final class Operation implements AutoCloseable {
    private final Monitor monitor;
    final int thread, key;
    final String name, part;
    boolean isOver;

    Operation(Monitor monitor, int thread, String name, int key, String part) {
        this.monitor = monitor;
        this.thread = thread;
        this.name = name;
        this.key = key;
        this.part = part;
    }

    /** It took place. */
    public void ok() {
        monitor.complete(this, "ok", part);
    }

    /** It certainly did not take place, as after a refused connection, or if somebody else holds the lock. */
    public void fail() {
        monitor.complete(this, "fail", part);
    }

    /** It may have taken place, or may yet, as after a timeout. */
    public void info() {
        monitor.complete(this, "info", part);
    }

    /** The answer of a read or a dequeue. Null is a missing key, or an empty queue. */
    public void value(Number answer) {
        if (answer != null) monitor.complete(this, "ok", Long.toString(answer.longValue()));
        else if (name.equals("dequeue")) fail();
        else monitor.complete(this, "ok", Long.toString(Monitor.ABSENT));
    }

    /** The members that the read of a set found. */
    public void values(Collection<? extends Number> members) {
        TreeSet<Long> sorted = new TreeSet<>();
        for (Number member : members) sorted.add(member.longValue());
        StringBuilder text = new StringBuilder("#{");
        for (Long member : sorted) text.append(member).append(' ');
        monitor.complete(this, "ok", text.append('}').toString());
    }

    /** Ends it as unknown, if nothing else has ended it. It throws nothing, so that an exception goes on. */
    @Override public void close() {
        if (isOver) return;
        try {
            info();
        } catch (Verdict | IllegalStateException e) {
            // the monitor's close throws it
        }
    }
}
