package jepmon;

import java.io.IOException;
import java.io.OutputStream;
import java.nio.file.Files;
import java.nio.file.Path;
import java.util.ArrayDeque;
import java.util.ArrayList;
import java.util.List;
import java.util.concurrent.TimeUnit;
import java.util.regex.Matcher;
import java.util.regex.Pattern;

/** The lines of a history, for what is said of a verdict. */
final class History {
    private static final int MOST = 12; // events in a verdict's text
    private static final Pattern OVER = Pattern.compile("(?m)^key (\\d+) .* status over (\\d+)$");
    private static final Pattern STRING = Pattern.compile("\"((?:[^\"\\\\]|\\\\.)*)\"");

    private History() {}

    /** The last events of the verdict's key, each after its index. */
    static List<String> tail(List<Lines> pieces, Verdict verdict) {
        ArrayDeque<String> last = new ArrayDeque<>();
        String of = " :value [" + verdict.key + " ";
        int index = 0;
        for (Lines piece : pieces) {
            for (String line : piece.toString().split("\n")) {
                if (index <= verdict.index && line.contains(of)) last.add(index + " " + line);
                if (last.size() > MOST) last.remove();
                if (!line.isEmpty()) index++;
            }
        }
        return new ArrayList<>(last);
    }

    /** The verdict with the last events of its key, and with what helps if the key is over its budget. */
    static Verdict described(Verdict verdict, Options options, Program program, List<Lines> pieces) {
        List<String> lines = tail(pieces, verdict);
        if (verdict.status.equals("unknown")) lines.add(hint(verdict, options, program));
        return verdict.with(lines);
    }

    private static String hint(Verdict verdict, Options options, Program program) {
        String text = "key " + verdict.key + " has more outcomes than its budget: raise budget, let fewer clients use one key, or write to a new key"
            + " after timeouts";
        String kind = options.model.wide;
        if (program.byEnds.contains(verdict.key)) return text + Messages.EQUAL;
        if (kind == null || kind.equals(program.kind)) return text;
        if (options.byEnds) return text + ". Without byEnds the kind " + kind + " may decide it";
        return text + ". " + program.path + " does not have the kind " + kind + ": a newer jepmon may decide it";
    }

    /**
     * Writes the history to a file, and says where it is. It asks the program for the other keys over their budget, and jepmon-judge for the
     * cause in words, if it is there.
     */
    static List<String> report(Verdict verdict, Options options, Program program, List<Lines> pieces) {
        List<String> lines = new ArrayList<>();
        try {
            Path file = Files.createTempFile(options.folder(), "jepmon-", ".edn");
            try (OutputStream out = Files.newOutputStream(file)) {
                for (Lines piece : pieces) out.write(piece.bytes, 0, piece.length);
            }
            if (verdict.status.equals("illegal")) lines.addAll(cause(file, options, program.path));
            if (verdict.status.equals("unknown") && options.goesOn) lines.addAll(over(verdict, program, file, program.kind));
            if (verdict.status.equals("unknown") && options.goesOn && !program.byEnds.isEmpty()) {
                lines.addAll(over(verdict, program, file, options.model.word));
            }
            lines.add("history: " + file.toAbsolutePath());
        } catch (IOException e) {
            lines.add("the history can't be written: " + e);
        }
        return lines;
    }

    /** The keys over their budget other than the verdict's, of those that are judged by this kind. {@code script} names the first one alone. */
    private static List<String> over(Verdict verdict, Program program, Path history, String kind) throws IOException {
        List<String> lines = new ArrayList<>();
        for (Matcher found = OVER.matcher(program.check(history, kind)); found.find(); ) {
            int key = Integer.parseInt(found.group(1));
            if (key != verdict.key && program.byEnds.contains(key) != kind.equals(program.kind)) {
                lines.add("also unknown key " + key + " index " + found.group(2));
            }
        }
        return lines;
    }

    private static List<String> cause(Path history, Options options, String program) throws IOException {
        Path judge = judge(program);
        if (judge == null) return List.of();
        ProcessBuilder builder = new ProcessBuilder(judge.toString(), history.toString(), "--json", "--model", options.model.word,
            "--concurrency", "" + options.concurrency).redirectError(ProcessBuilder.Redirect.DISCARD);
        builder.environment().put("JEPMON", program);
        Path said = Files.createTempFile("jepmon", ".json");
        try {
            Process process = builder.redirectOutput(said.toFile()).start();
            process.getOutputStream().close();
            if (!process.waitFor(1, TimeUnit.MINUTES)) process.destroyForcibly();
            return causeOf(Files.readString(said));
        } catch (InterruptedException e) {
            Thread.currentThread().interrupt();
            return List.of();
        } finally {
            Files.delete(said);
        }
    }

    /** The headline and the sentences of the first cause in the object that jepmon-judge prints. */
    static List<String> causeOf(String json) {
        int from = json.indexOf("\"headline\":"), to = json.indexOf(']', Math.max(from, 0));
        List<String> lines = new ArrayList<>();
        Matcher strings = STRING.matcher(json).region(Math.max(from, 0), from < 0 || to < 0 ? 0 : to + 1);
        while (from >= 0 && strings.find()) {
            String text = strings.group(1);
            if (text.equals("headline") || text.equals("sentences")) continue;
            lines.add((lines.isEmpty() ? "" : "  ") + text.replace("\\\"", "\"").replace("\\\\", "\\"));
        }
        return lines;
    }

    /** The jepmon-judge that JEPMON_JUDGE names ({@code no} is none), else beside the program or in its clone, else on the PATH. */
    private static Path judge(String program) {
        String named = System.getenv("JEPMON_JUDGE");
        if (named != null && !named.isEmpty()) return named.equals("no") ? null : Path.of(named);
        Path folder = Path.of(program).toAbsolutePath().getParent();
        for (int up = 0; up < 2 && folder != null; up++, folder = folder.getParent()) {
            if (Files.isExecutable(folder.resolve("jepmon-judge"))) return folder.resolve("jepmon-judge");
        }
        return Program.onPath("jepmon-judge");
    }
}
