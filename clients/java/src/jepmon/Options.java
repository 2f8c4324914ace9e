package jepmon;

import java.nio.file.Path;
import java.time.Duration;

/** How a monitor judges. Each method gives a copy with one option more: {@code Options.of(Model.SET).waiting()}. */
public final class Options implements Cloneable {
    String program;
    Model model = Model.REGISTER;
    int concurrency; // 0 is 64, or what the program allows, if that is less
    int budget;
    boolean byEnds;
    boolean waits;
    boolean goesOn;
    Long initial;
    Duration timeout = Duration.ofMinutes(1);
    Path out;

    private Options() {}

    public static Options of(Model model) {
        Options options = new Options();
        options.model = model;
        return options;
    }

    private interface Change {
        void on(Options options);
    }

    private Options with(Change change) {
        try {
            Options copy = (Options) clone();
            change.on(copy);
            return copy;
        } catch (CloneNotSupportedException e) {
            throw new AssertionError(e);
        }
    }

    /** The path of the program; else JEPMON names it, or it lies beside the package, or it is jepmon on the PATH. */
    public Options program(String path) {
        return with(o -> o.program = path);
    }

    /** How many operations may be open at once, 1 to 64. */
    public Options concurrency(int operations) {
        return with(o -> o.concurrency = operations);
    }

    /** How many outcomes of a key are followed before it is unknown. */
    public Options budget(int outcomes) {
        return with(o -> o.budget = outcomes);
    }

    /** Keys are judged by all their outcomes: no model is judged as its wide kind. */
    public Options byEnds() {
        return with(o -> o.byEnds = true);
    }

    /** Each event waits for its reply: no request is sent after a bad event. */
    public Options waiting() {
        return with(o -> o.waits = true);
    }

    /** What each register holds at first; without it, it is missing. */
    public Options initial(long value) {
        return with(o -> o.initial = value);
    }

    /** A key that is over its budget does not end the test; close says unknown then. */
    public Options goOn() {
        return with(o -> o.goesOn = true);
    }

    /** How long a reply may take: a minute. */
    public Options timeout(Duration longest) {
        return with(o -> o.timeout = longest);
    }

    /** The folder for the history of a test that is not legal; without it JEPMON_OUT names it, or it is that of temporary files. */
    public Options out(Path folder) {
        return with(o -> o.out = folder);
    }

    Path folder() {
        String named = System.getenv("JEPMON_OUT");
        return out != null ? out : Path.of(named != null ? named : System.getProperty("java.io.tmpdir"));
    }
}
