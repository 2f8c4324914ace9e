package jepmon;

import static org.junit.jupiter.api.Assertions.assertTrue;

import java.io.IOException;
import java.nio.charset.StandardCharsets;
import java.nio.file.Files;
import java.nio.file.Path;
import java.time.Duration;
import java.util.ArrayList;
import java.util.Arrays;
import java.util.HashMap;
import java.util.List;
import java.util.Map;
import org.junit.jupiter.api.Test;
import org.junit.jupiter.api.io.TempDir;

/** Runs the scenarios of clients/conformance, whose words clients/README.md explains. */
class ConformanceTest {
    private static final Path TABLE = Path.of(System.getProperty("jepmon.conformance", "../conformance"));

    @TempDir Path out;
    private Options options;
    private Monitor monitor;
    private Map<String, Operation> operations;
    private Verdict ended;

    @Test void scenarios() throws Exception {
        List<String> failed = new ArrayList<>();
        int minor = minorVersion();
        for (List<String[]> scenario : read()) {
            if (scenario.stream().anyMatch(line -> line[0].equals("since") && Integer.parseInt(line[1]) > minor)) continue;
            for (boolean waits : new boolean[] {false, true}) {
                if (waits && scenario.stream().anyMatch(line -> String.join(" ", line).equals("waiting no"))) continue;
                String name = scenario.get(0)[1] + (waits ? "_waiting" : "");
                try {
                    run(scenario, waits);
                    System.out.println("conformance " + name + ": ok");
                } catch (Throwable e) {
                    System.out.println("conformance " + name + ": FAILED: " + e);
                    failed.add(name);
                }
            }
        }
        assertTrue(failed.isEmpty(), "failed: " + failed);
    }

    /** The minor version of the program that is tested. */
    private static int minorVersion() throws IOException {
        Process asked = new ProcessBuilder(Program.find(null), "--version").start();
        return Integer.parseInt(new String(asked.getInputStream().readAllBytes(), StandardCharsets.UTF_8).split("\\.")[1]);
    }

    private static List<List<String[]>> read() throws IOException {
        List<List<String[]>> all = new ArrayList<>();
        for (String line : Files.readAllLines(TABLE.resolve("scenarios.txt"))) {
            if (line.isBlank() || line.startsWith("#")) continue;
            String[] words = line.trim().split(" +");
            if (words[0].equals("scenario")) all.add(new ArrayList<>());
            all.get(all.size() - 1).add(words);
        }
        return all;
    }

    private void run(List<String[]> scenario, boolean waits) throws Exception {
        String model = scenario.stream().filter(line -> line[0].equals("model")).map(line -> line[1]).findFirst().orElse("register");
        options = Options.of(Model.of(model)).out(out);
        if (waits) options = options.waiting();
        monitor = null;
        ended = null;
        operations = new HashMap<>();
        try {
            for (String[] words : scenario) step(words);
        } finally {
            if (monitor != null) close();
        }
    }

    private Verdict close() {
        try {
            monitor.close();
            return null;
        } catch (Verdict verdict) {
            return verdict;
        }
    }

    private void step(String[] words) throws Exception {
        switch (words[0]) {
            case "scenario", "waiting", "since", "model" -> { }
            case "concurrency" -> options = options.concurrency(Integer.parseInt(words[1]));
            case "budget" -> options = options.budget(Integer.parseInt(words[1]));
            case "initial" -> options = options.initial(Long.parseLong(words[1]));
            case "by-ends" -> options = options.byEnds();
            case "unknown" -> options = options.goOn();
            case "timeout" -> options = options.timeout(Duration.ofSeconds(Long.parseLong(words[1])));
            case "program" -> options = options.program(TABLE.resolve("programs").resolve(words[1]).toAbsolutePath().toString());
            case "expect" -> expect(words);
            case "says" -> {
                String text = "" + verdict(), said = String.join(" ", Arrays.copyOfRange(words, 1, words.length));
                if (!text.contains(said)) throw new AssertionError(String.join(" ", words) + ": the verdict is " + text);
            }
            case "count" -> {
                long got = monitor.counts().getOrDefault(words[1] + " " + words[2], 0L);
                if (got != Long.parseLong(words[3])) throw new AssertionError(String.join(" ", words) + ": there are " + got);
            }
            default -> act(words);
        }
    }

    /** Starts the monitor, if that was not done. */
    private void begin() {
        if (monitor != null || ended != null) return;
        try {
            monitor = Monitor.start(options);
        } catch (Verdict verdict) {
            ended = verdict;
        }
    }

    /** Does what uses the monitor. After the verdict it does nothing. */
    private void act(String[] words) throws Exception {
        begin();
        if (ended != null) return;
        try {
            switch (words[0]) {
                case "rejected" -> {
                    try {
                        use(Arrays.copyOfRange(words, 1, words.length));
                    } catch (IllegalArgumentException | IllegalStateException e) {
                        return;
                    }
                    throw new AssertionError(String.join(" ", words) + ": it was not rejected");
                }
                case "invoke" -> operations.put(words[1], use(Arrays.copyOfRange(words, 2, words.length)));
                case "reset", "begin" -> use(words);
                case "clients" -> clients(words);
                case "parts" -> parts(words);
                default -> end(operations.get(words[1]), words);
            }
        } catch (Verdict verdict) {
            ended = verdict;
        }
    }

    private Operation use(String[] words) {
        int key = words.length > 1 ? Integer.parseInt(words[1]) : 0;
        long value = words.length > 2 ? Long.parseLong(words[2]) : 0;
        switch (words[0]) {
            case "reset" -> monitor.reset();
            case "begin" -> monitor.begin(key, value);
            case "read" -> { return monitor.read(key); }
            case "write" -> { return monitor.write(key, value); }
            case "cas" -> { return monitor.cas(key, value, Long.parseLong(words[3])); }
            case "add" -> { return monitor.add(key, value); }
            case "enqueue" -> { return monitor.enqueue(key, value); }
            case "dequeue" -> { return monitor.dequeue(key); }
            case "acquire" -> { return monitor.acquire(key); }
            case "release" -> { return monitor.release(key); }
            default -> throw new AssertionError("there is no such line: " + words[0]);
        }
        return null;
    }

    private void end(Operation operation, String[] words) {
        switch (words[0]) {
            case "ok" -> operation.ok();
            case "fail" -> operation.fail();
            case "info" -> operation.info();
            case "missing" -> operation.value(null);
            case "value" -> operation.value(Long.parseLong(words[2]));
            case "values" -> operation.values(Arrays.stream(words).skip(2).map(Long::parseLong).toList());
            default -> throw new AssertionError("there is no such line: " + words[0]);
        }
    }

    private static long option(String[] words, String name) {
        for (int i = 0; i + 1 < words.length; i++) {
            if (words[i].equals(name)) return Long.parseLong(words[i + 1]);
        }
        return 0;
    }

    /** Has threads write and read a store, which may lose some writes. */
    private void clients(String[] words) throws Exception {
        int operations = (int) option(words, "operations"), keys = (int) option(words, "keys");
        long loses = option(words, "loses");
        Map<Integer, Long> store = new HashMap<>();
        long[] writes = {0};
        monitor.run((int) option(words, "clients"), client -> {
            for (int i = 0; i < operations; i++) {
                int key = (client * 7 + i / 2) % keys;
                long value = (long) client * operations + i;
                if (i % 2 == 0) {
                    try (Operation write = monitor.write(key, value)) {
                        synchronized (store) {
                            if (loses == 0 || ++writes[0] % loses != 0) store.put(key, value);
                        }
                        write.ok();
                    }
                } else {
                    try (Operation read = monitor.read(key)) {
                        Long found;
                        synchronized (store) {
                            found = store.get(key);
                        }
                        read.value(found);
                    }
                }
            }
        });
    }

    /** Has one history after another. JEPMON_PARTS="20 500000" makes it ten million operations. */
    private void parts(String[] words) {
        long parts = option(words, "parts"), operations = option(words, "operations");
        String more = System.getenv("JEPMON_PARTS");
        if (more != null) {
            parts = Long.parseLong(more.split(" ")[0]);
            operations = Long.parseLong(more.split(" ")[1]);
        }
        for (; parts > 0; parts--) {
            for (long i = 0; i < operations; i += 2) {
                int key = (int) (i / 2 % 64);
                monitor.write(key, i).ok();
                monitor.read(key).value(i);
            }
            monitor.reset();
        }
    }

    /** Closes the monitor. */
    private Verdict verdict() {
        begin();
        return monitor == null ? ended : close();
    }

    /** Compares the verdict. */
    private void expect(String[] words) {
        Verdict got = verdict();
        String want = words[1].equals("refused") || words.length < 4 ? words[1] : words[1] + " key " + words[2] + " index " + words[3];
        String more = words[1].equals("refused") ? String.join(" ", Arrays.copyOfRange(words, 2, words.length)) : "";
        String reply = got == null ? "legal" : got.reply;
        if (!reply.startsWith(want) || !reply.contains(more)) throw new AssertionError(String.join(" ", words) + ": the verdict is " + reply);
    }
}
