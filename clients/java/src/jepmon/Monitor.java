package jepmon;

import java.io.IOException;
import java.io.OutputStream;
import java.util.ArrayDeque;
import java.util.ArrayList;
import java.util.HashSet;
import java.util.List;
import java.util.Map;
import java.util.Set;
import java.util.TreeMap;
import java.util.concurrent.ExecutionException;
import java.util.concurrent.ExecutorService;
import java.util.concurrent.Executors;
import java.util.concurrent.Future;
import java.util.concurrent.locks.Condition;
import java.util.concurrent.locks.ReentrantLock;

/**
 * Judges live, in the test that drives them, whether what threads do is linearizable. It drives the program {@code jepmon script},
 * and needs Linux. Any number of threads may use it.
 * <pre>{@code
 * try (Monitor monitor = Monitor.start(Options.of(Model.REGISTER))) {
 *     try (Operation write = monitor.write(7, 3)) { store.put(7, 3L); write.ok(); }  // an exception: the outcome is unknown
 *     try (Operation read = monitor.read(7)) { read.value(store.get(7)); }           // null: the key is missing
 * }                                                                                  // a Verdict, if the history is not legal
 * }</pre>
 * No operation waits for a reply. The order of the lines is the history, and a line has its place when it is appended, so the verdict
 * may come later. {@link Options#waiting} makes each event wait for its reply.
 */
public final class Monitor implements AutoCloseable {
    /** The value of a missing key. The key of a register begins with it, without {@link Options#initial}. */
    public static final long ABSENT = Long.MIN_VALUE;
    private static final int MOST = 1 << 20; // bytes that wait for the program: if there are more, operations wait before they begin

    private final Options options;
    private final Program program;
    private final Messages messages;
    private final ReentrantLock lock = new ReentrantLock();
    private final Condition changed = lock.newCondition(); // replies came, there is room, or it is over
    private final Condition filled = lock.newCondition(); // there is something to write, or it is over
    private Lines buffer = new Lines(); // lines that the writer has not taken
    private final List<Lines> kept = new ArrayList<>(); // the lines since the last reset
    private long lines, replies;
    private final ArrayDeque<Integer> free = new ArrayDeque<>(); // threads without an operation
    private final long[] processes; // of each thread
    private final Set<Operation> open = new HashSet<>();
    private final Set<Integer> begun = new HashSet<>();
    private final Map<String, Long> counts = new TreeMap<>();
    private String last = "legal";
    private Verdict bad, unknown;
    private boolean isClosed, hasEnded, isResetting;

    private Monitor(Options given) {
        program = new Program(given);
        options = program.options;
        messages = new Messages(program);
        processes = new long[options.concurrency];
        for (int thread = 0; thread < options.concurrency; thread++) {
            processes[thread] = thread;
            free.add(thread);
        }
        daemon("jepmon-writer", this::write);
        daemon("jepmon-reader", this::read);
        daemon("jepmon-watch", this::watch);
    }

    /** Starts the program. A Verdict says why it can't be used. */
    public static Monitor start(Options options) {
        Monitor monitor = new Monitor(options);
        monitor.lock.lock();
        try {
            monitor.command("[:verdict]"); // it answers legal, or it is no jepmon
            while (monitor.replies == 0 && monitor.bad == null) monitor.changed.awaitUninterruptibly();
            if (monitor.bad == null) {
                monitor.kept.clear();
                return monitor;
            }
        } finally {
            monitor.lock.unlock();
        }
        monitor.close();
        throw new AssertionError("not reached");
    }

    private static void daemon(String name, Runnable work) {
        Thread thread = new Thread(work, name);
        thread.setDaemon(true);
        thread.start();
    }

    // --- The exchange with the program: one thread writes, one reads, and one looks at the time ---

    /** Sends the lines. All lines that were appended since its last write go by one write. */
    private void write() {
        try (OutputStream output = program.process.getOutputStream()) {
            while (true) {
                Lines piece;
                lock.lock();
                try {
                    while (buffer.length == 0 && !isClosed && bad == null) filled.awaitUninterruptibly();
                    if (buffer.length == 0 || bad != null) return;
                    piece = buffer;
                    buffer = new Lines();
                    kept.add(piece);
                    if (piece.length > MOST) changed.signalAll();
                } finally {
                    lock.unlock();
                }
                output.write(piece.bytes, 0, piece.length);
                output.flush();
            }
        } catch (IOException e) {
            // the reader says why
        }
    }

    /** Takes the replies until the program ends, and says how it has ended. */
    private void read() {
        String refusal = null;
        try {
            Replies in = new Replies(program.process.getInputStream());
            while (refusal == null && in.next()) {
                refusal = replied(in.reply, in.count);
                if (bad != null) program.kill();
            }
        } catch (IOException e) {
            // it has ended
        }
        Program.End end = program.end(refusal != null);
        lock.lock();
        try {
            int expected = last.startsWith("unknown") ? 2 : 0;
            if (refusal != null) fail(Verdict.refused(refusal + end.why()));
            else if (!isClosed || replies != lines) fail(Verdict.refused("jepmon has ended " + end.how() + ", after " + replies
                + " replies to " + lines + " lines" + end.why()));
            else if (end.status() != expected) fail(Verdict.refused("jepmon has ended " + end.how() + ", after the reply " + last + end.why()));
            hasEnded = true;
            changed.signalAll();
        } finally {
            lock.unlock();
        }
    }

    /** Takes a reply that came this number of times. It gives the text of a refusal: the program ends after one. */
    private String replied(String reply, int count) {
        lock.lock();
        try {
            replies += count;
            last = reply;
            if (replies > lines) fail(Verdict.refused("jepmon gave " + replies + " replies to " + lines + " lines"));
            if (options.waits || isResetting || replies == 1) changed.signalAll();
            if (reply.equals("legal")) return null;
            Verdict verdict = Verdict.of(reply);
            if (verdict == null) return reply.startsWith("refused") ? reply : "refused: " + reply;
            boolean goesOn = verdict.status.equals("unknown") && options.goesOn;
            if (goesOn && unknown != null || bad != null) return null;
            verdict = History.described(verdict, options, program, history());
            if (goesOn) unknown = verdict;
            else fail(verdict);
            return null;
        } finally {
            lock.unlock();
        }
    }

    /** Kills a program that gives no reply in time. */
    private void watch() {
        long before = -1, since = System.nanoTime();
        lock.lock();
        try {
            while (!hasEnded) {
                changed.awaitNanos(options.timeout.toNanos() / 10);
                if (replies != before || replies == lines && !isClosed) {
                    before = replies;
                    since = System.nanoTime();
                }
                if (System.nanoTime() - since > options.timeout.toNanos()) {
                    fail(Verdict.refused("jepmon gave no reply for " + options.timeout.toSeconds() + " seconds, after " + replies + " replies to "
                        + lines + " lines: lines take long if many clients share a key, so use more keys, or a greater timeout"));
                    program.kill();
                }
            }
        } catch (InterruptedException e) {
            // nobody interrupts it
        } finally {
            lock.unlock();
        }
    }

    // --- Lines: the caller has the lock ---

    /** Ends the test, once. */
    private void fail(Verdict verdict) {
        if (bad == null) bad = verdict;
        changed.signalAll();
        filled.signalAll();
    }

    private List<Lines> history() {
        List<Lines> all = new ArrayList<>();
        for (Lines piece : kept) all.add(piece.events());
        all.add(buffer.events());
        return all;
    }

    private void command(String text) {
        buffer.text(text).text("\n");
        lines++;
        filled.signal();
    }

    private void event(String kind, long process, String name, int key, String part) {
        if (buffer.length == 0) filled.signal();
        buffer.text("{:type :").text(kind).text(" :process ").number(process).text(" :f :").text(name).text(" :value [").number(key).text(" ")
            .text(part).text("]}\n");
        lines++;
    }

    /** Waits for the replies to all lines so far, if events wait. */
    private void settle() {
        for (long all = lines; options.waits && replies < all && bad == null; ) changed.awaitUninterruptibly();
        test();
    }

    private void test() {
        if (bad != null) throw bad.again();
        if (isClosed) throw new IllegalStateException("the monitor is closed");
    }

    private void testArguments(String name, int key) {
        if (!options.model.operations.contains(name)) {
            throw new IllegalArgumentException("a " + options.model.word + " has no operation " + name + ": it has " + options.model.operations);
        }
        int most = program.hello.keys() - 1;
        if (key < 0 || key > most) throw new IllegalArgumentException("key " + key + " is none: keys are 0 to " + most);
    }

    private void beginKey(int key, long value) {
        begun.add(key);
        long process = processes[free.peek()];
        event("invoke", process, "write", key, Long.toString(value));
        event("ok", process, "write", key, Long.toString(value));
    }

    // --- Operations ---

    private Operation begin(String name, int key, String part) {
        lock.lock();
        try {
            testArguments(name, key);
            test();
            while (buffer.length > MOST || isResetting) {
                changed.awaitUninterruptibly();
                test();
            }
            if (free.isEmpty()) {
                throw new IllegalStateException("more than " + options.concurrency + " operations are open at once: raise concurrency, "
                    + program.hello.clients() + " at most");
            }
            if (options.model.isRegister() && !begun.contains(key)) beginKey(key, options.initial != null ? options.initial : ABSENT);
            Operation operation = new Operation(this, free.pop(), name, key, part);
            open.add(operation);
            if (messages.begins(name, key, part)) command("[:model " + key + " :" + options.model.word + "]");
            event("invoke", processes[operation.thread], name, key, part);
            settle();
            return operation;
        } finally {
            lock.unlock();
        }
    }

    void complete(Operation operation, String outcome, String part) {
        lock.lock();
        try {
            if (operation.isOver) throw new IllegalStateException("the " + operation.name + " of key " + operation.key + " has ended already");
            test();
            operation.isOver = true;
            open.remove(operation);
            event(outcome, processes[operation.thread], operation.name, operation.key, part);
            counts.merge(operation.name + " " + outcome, 1L, Long::sum);
            if (outcome.equals("fail")) messages.fails(operation.name, operation.key, operation.part);
            if (outcome.equals("info")) processes[operation.thread] += options.concurrency;
            free.push(operation.thread);
            settle();
        } finally {
            lock.unlock();
        }
    }

    /** Says what a register holds before its first operation. */
    public void begin(int key, long value) {
        lock.lock();
        try {
            testArguments("write", key);
            test();
            if (begun.contains(key) || free.isEmpty()) {
                throw new IllegalStateException("key " + key + " has begun: say what it holds before its first operation");
            }
            beginKey(key, value);
            settle();
        } finally {
            lock.unlock();
        }
    }

    /** Of a register or a set. End it by value, or values for a set. */
    public Operation read(int key) {
        return begin("read", key, "nil");
    }

    public Operation write(int key, long value) {
        return begin("write", key, Long.toString(value));
    }

    /** Sets a cas-register to the value if it is old. If it was another one, the operation fails. */
    public Operation cas(int key, long old, long value) {
        return begin("cas", key, "[" + old + " " + value + "]");
    }

    public Operation add(int key, long member) {
        return begin("add", key, Long.toString(member));
    }

    public Operation enqueue(int key, long message) {
        return begin("enqueue", key, Long.toString(message));
    }

    /** End it by value; null is an empty queue. */
    public Operation dequeue(int key) {
        return begin("dequeue", key, "nil");
    }

    /** Takes a lock. If somebody holds it, the operation fails. */
    public Operation acquire(int key) {
        return begin("acquire", key, "nil");
    }

    public Operation release(int key) {
        return begin("release", key, "nil");
    }

    // --- Clients, and what has come of it ---

    /** What a client does. */
    public interface Client {
        void run(int number) throws Exception;
    }

    /** Runs clients 0 to n-1 in threads, and waits for them. It throws the verdict so far, else what one of them threw first. */
    public void run(int n, Client client) throws Exception {
        ExecutorService threads = Executors.newFixedThreadPool(n);
        try {
            List<Future<?>> all = new ArrayList<>();
            for (int number = 0; number < n; number++) {
                int own = number;
                all.add(threads.submit(() -> {
                    client.run(own);
                    return null;
                }));
            }
            Throwable first = null;
            for (Future<?> future : all) {
                try {
                    future.get();
                } catch (ExecutionException e) {
                    if (first == null) first = e.getCause();
                }
            }
            if (failure() != null) throw failure();
            if (first instanceof Error) throw (Error) first;
            if (first != null) throw (Exception) first;
        } finally {
            threads.shutdownNow();
        }
    }

    /** The verdict that has ended the test; null while it goes on. */
    public Verdict failure() {
        lock.lock();
        try {
            return bad == null ? null : bad.again();
        } finally {
            lock.unlock();
        }
    }

    /** How many operations ended how, as {@code "write ok"}, and how many are open, as {@code "write open"}. */
    public Map<String, Long> counts() {
        lock.lock();
        try {
            Map<String, Long> all = new TreeMap<>(counts);
            for (Operation operation : open) all.merge(operation.name + " open", 1L, Long::sum);
            return all;
        } finally {
            lock.unlock();
        }
    }

    /**
     * Begins a new history in the same program, and waits for the verdict on the one before. No operation may be open. The keys begin
     * again, so the store has to have nothing under them. A history has at most 1,048,576 events.
     */
    public void reset() {
        lock.lock();
        try {
            test();
            if (!open.isEmpty() || isResetting) throw new IllegalStateException(open.size() + " operations are open: a reset waits for none");
            isResetting = true;
            command("[:rewind 0]");
            while (replies < lines && bad == null) changed.awaitUninterruptibly();
            isResetting = false;
            changed.signalAll();
            test();
            if (unknown != null) unknown = reported(unknown);
            kept.clear();
            begun.clear();
            for (int key : program.byEnds) command("[:model " + key + " :" + program.kind + "]");
            messages.forget();
            for (int thread = 0; thread < processes.length; thread++) processes[thread] = thread;
        } finally {
            lock.unlock();
        }
    }

    /** Ends the program. It throws a Verdict, unless each line got its reply and all is legal. */
    @Override public void close() {
        lock.lock();
        try {
            isClosed = true;
            filled.signalAll();
            changed.signalAll();
            while (!hasEnded) changed.awaitUninterruptibly();
            if (bad == null) bad = unknown;
            if (bad == null) return;
            bad = reported(bad);
            throw bad;
        } finally {
            lock.unlock();
        }
    }

    /** Adds to a verdict what is known at the end of its history, once. The caller has the lock. */
    private Verdict reported(Verdict verdict) {
        if (verdict.isReported) return verdict.again();
        Verdict whole = verdict.with(History.report(verdict, options, program, history()));
        whole.isReported = true;
        return whole;
    }
}
