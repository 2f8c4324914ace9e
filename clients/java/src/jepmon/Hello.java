package jepmon;

import java.io.IOException;
import java.io.OutputStream;
import java.nio.charset.StandardCharsets;
import java.time.Duration;
import java.util.HashSet;
import java.util.Set;
import java.util.concurrent.TimeUnit;
import java.util.regex.Matcher;
import java.util.regex.Pattern;

/**
 * What a program says of itself: it answers {@code [:hello]}, or it is older than 1.6, and says its version alone. It has the names of the
 * kinds, and the limits: operations that are open at once, and keys.
 */
record Hello(Set<String> kinds, int clients, int keys) {
    private static final int MAJOR = 1, MINOR = 4; // of the oldest program that this package works with
    private static final Duration PATIENCE = Duration.ofMinutes(1); // for what takes milliseconds, if no machine is busy
    private static final Pattern HELLO = Pattern.compile("\\{:jepmon \"([^\"]*)\" .*\\}\n");
    private static final Pattern KINDS = Pattern.compile(":kinds \\[([^\\]]*)\\]");
    private static final Pattern VERSION = Pattern.compile("jepmon (\\S+)\n[\\s\\S]*");
    private static final Pattern NUMBERS = Pattern.compile("(\\d+)\\.(\\d+)\\.\\d+");

    /** Asks the program of this path. A Verdict says what is wrong with it. */
    static Hello of(String path, Duration timeout) {
        Duration longest = timeout.compareTo(PATIENCE) < 0 ? timeout : PATIENCE;
        String said = ask(longest, "[:hello]\n", path, "script");
        Matcher hello = HELLO.matcher(said);
        if (hello.matches()) {
            minor(path, hello.group(1));
            Set<String> kinds = new HashSet<>();
            Matcher found = KINDS.matcher(said);
            if (found.find()) for (String kind : found.group(1).split(" ")) kinds.add(kind.replaceFirst("^:", ""));
            return new Hello(kinds, limit(said, "max-clients", 64), limit(said, "max-keys", 65536));
        }
        said = ask(longest, "", path, "--version");
        Matcher version = VERSION.matcher(said);
        if (!version.matches()) throw Verdict.refused(path + " is no jepmon: its --version prints " + said.lines().findFirst().orElse("nothing"));
        return new Hello(minor(path, version.group(1)) >= 5 ? Set.of("wide-register", "wide-set") : Set.of(), 64, 65536);
    }

    /** What a program prints if it has this input. */
    private static String ask(Duration longest, String input, String... words) {
        try {
            Process asked = new ProcessBuilder(words).redirectError(ProcessBuilder.Redirect.DISCARD).start();
            try (OutputStream in = asked.getOutputStream()) {
                in.write(input.getBytes(StandardCharsets.US_ASCII));
            } catch (IOException e) {
                // it has ended without it
            }
            if (!asked.waitFor(longest.toMillis(), TimeUnit.MILLISECONDS)) {
                asked.descendants().forEach(ProcessHandle::destroyForcibly);
                asked.destroyForcibly();
                return "";
            }
            return new String(asked.getInputStream().readAllBytes(), StandardCharsets.UTF_8);
        } catch (IOException e) {
            throw Verdict.refused(words[0] + " can't be used: " + e.getMessage());
        } catch (InterruptedException e) {
            Thread.currentThread().interrupt();
            throw Verdict.refused("the start was interrupted");
        }
    }

    /** The minor version, if this package works with the version. */
    private static int minor(String path, String version) {
        Matcher found = NUMBERS.matcher(version);
        if (!found.matches() || Integer.parseInt(found.group(1)) != MAJOR || Integer.parseInt(found.group(2)) < MINOR) {
            throw Verdict.refused(path + " is jepmon " + version + ": this package needs jepmon " + MAJOR + "." + MINOR + " or a later " + MAJOR);
        }
        return Integer.parseInt(found.group(2));
    }

    /** The number of this name, if the answer has it. */
    private static int limit(String said, String name, int otherwise) {
        Matcher found = Pattern.compile(":" + name + " (\\d+)[ }]").matcher(said);
        return found.find() ? Integer.parseInt(found.group(1)) : otherwise;
    }
}
