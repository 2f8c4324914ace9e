package jepmon;

import java.io.File;
import java.io.IOException;
import java.io.InputStream;
import java.net.URISyntaxException;
import java.nio.charset.StandardCharsets;
import java.nio.file.Files;
import java.nio.file.Path;
import java.util.ArrayList;
import java.util.HashSet;
import java.util.List;
import java.util.Set;
import java.util.concurrent.TimeUnit;

/** The running {@code jepmon script}. */
final class Program {
    final Options options;
    final String path;
    final Hello hello;
    final String kind; // by which it judges all keys but these:
    final Set<Integer> byEnds = new HashSet<>(); // fifo queues of equal values, which it judges by their ends
    final Process process;
    private final Path errors;

    Program(Options given) {
        path = find(given.program);
        hello = Hello.of(path, given.timeout);
        options = given.concurrency == 0 ? given.concurrency(Math.min(64, hello.clients())) : given;
        String wide = options.model.wide;
        kind = wide != null && !options.byEnds && hello.kinds().contains(wide) ? wide : options.model.word;
        List<String> words = words("script", "--strict", kind);
        try {
            errors = Files.createTempFile("jepmon", ".errors");
            process = new ProcessBuilder(words).redirectError(errors.toFile()).start();
        } catch (IOException e) {
            throw Verdict.refused(e.getMessage());
        }
    }

    /** A command with those options that {@code jepmon script} and {@code jepmon check} have. */
    private List<String> words(String command, String first, String kind) {
        List<String> words = new ArrayList<>(List.of(path, command, first, "--concurrency", "" + options.concurrency, "--model", kind));
        if (options.budget > 0) words.addAll(List.of("--budget", "" + options.budget));
        return words;
    }

    /** What {@code jepmon check} says of a history, by the kind of this name. */
    String check(Path history, String kind) throws IOException {
        Process asked = new ProcessBuilder(words("check", history.toString(), kind)).redirectError(ProcessBuilder.Redirect.DISCARD).start();
        asked.getOutputStream().close();
        return new String(asked.getInputStream().readAllBytes(), StandardCharsets.UTF_8);
    }

    /** The path that is named, or that JEPMON names; else the program beside the package or in its clone; else jepmon on the PATH. */
    static String find(String named) {
        if (named == null) named = System.getenv("JEPMON");
        if (named != null && !named.isEmpty()) return named;
        Path beside = beside();
        if (beside != null) return beside.toString();
        Path found = onPath("jepmon");
        if (found == null) throw Verdict.refused("there is no jepmon: JEPMON names the program, or it is on the PATH");
        return found.toString();
    }

    /** The program in the folder of the classes or of their jar, or in one above it. A script of a clone is none. */
    private static Path beside() {
        try {
            Path folder = Path.of(Program.class.getProtectionDomain().getCodeSource().getLocation().toURI());
            for (; folder != null; folder = folder.getParent()) {
                for (String name : new String[] {"jepmon", "dist/jepmon"}) {
                    if (isProgram(folder.resolve(name))) return folder.resolve(name);
                }
            }
        } catch (URISyntaxException | RuntimeException e) {
            // the classes lie in no folder
        }
        return null;
    }

    static Path onPath(String name) {
        for (String folder : System.getenv().getOrDefault("PATH", "").split(File.pathSeparator)) {
            Path path = Path.of(folder, name);
            if (Files.isExecutable(path) && Files.isRegularFile(path)) return path;
        }
        return null;
    }

    private static boolean isProgram(Path path) {
        if (!Files.isRegularFile(path) || !Files.isExecutable(path)) return false;
        try (InputStream file = Files.newInputStream(path)) {
            byte[] first = file.readNBytes(4);
            return first.length == 4 && first[0] == 0x7f && first[1] == 'E' && first[2] == 'L' && first[3] == 'F';
        } catch (IOException e) {
            return false;
        }
    }

    void kill() {
        process.descendants().forEach(ProcessHandle::destroyForcibly);
        process.destroyForcibly();
    }

    /** How it has ended: its status, and what it wrote to standard error. */
    record End(int status, String how, String why) {}

    /** Waits for its end. A program that is not needed any more is killed after a second. */
    End end(boolean isOver) {
        try {
            if (isOver && !process.waitFor(1, TimeUnit.SECONDS)) kill();
            int status = process.waitFor();
            String text = Files.readString(errors, StandardCharsets.ISO_8859_1).strip().replaceAll("\\s+", " ");
            Files.deleteIfExists(errors);
            String how = status > 128 ? "by signal " + (status - 128) : "with status " + status;
            return new End(status, how, text.isEmpty() ? "" : ": " + text.substring(Math.max(0, text.length() - 2000)));
        } catch (IOException | InterruptedException e) {
            kill();
            return new End(-1, "in an unknown way", ": " + e);
        }
    }
}
