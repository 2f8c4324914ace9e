package jepmon;

import java.util.List;
import java.util.regex.Matcher;
import java.util.regex.Pattern;

/** The history is not legal: it is illegal, or unknown, or the program refused something or has ended. It fails a test. */
public final class Verdict extends AssertionError {
    private static final long serialVersionUID = 1;
    private static final Pattern FORM = Pattern.compile("(illegal|unknown) key (\\d+) index (\\d+)");

    /** illegal, unknown or refused. */
    public final String status;
    /** Of illegal and unknown, else -1: the key, and the event, from 0. */
    public final int key, index;
    /** What the program said, or what is wrong with it. */
    public final String reply;
    boolean isReported; // it has all that is known at the end of its history

    private Verdict(String status, int key, int index, String reply, String text) {
        super(text);
        this.status = status;
        this.key = key;
        this.index = index;
        this.reply = reply;
    }

    static Verdict refused(String why) {
        String reply = why.startsWith("refused") ? why : "refused: " + why;
        return new Verdict("refused", -1, -1, reply, reply);
    }

    /** The verdict of a reply; null if it is none that is illegal or unknown. */
    static Verdict of(String reply) {
        Matcher found = FORM.matcher(reply);
        if (!found.matches()) return null;
        return new Verdict(found.group(1), Integer.parseInt(found.group(2)), Integer.parseInt(found.group(3)), reply, reply);
    }

    /** The same, and more lines of text, to be thrown from here. */
    Verdict with(List<String> lines) {
        String text = lines.isEmpty() ? getMessage() : getMessage() + "\n  " + String.join("\n  ", lines);
        Verdict same = new Verdict(status, key, index, reply, text);
        same.isReported = isReported;
        return same;
    }

    /** The same, to be thrown from here. */
    Verdict again() {
        return with(List.of());
    }
}
