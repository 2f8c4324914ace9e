package jepmon;

import java.io.IOException;
import java.io.InputStream;
import java.nio.charset.StandardCharsets;
import java.util.Arrays;

/** The replies of a program, one after another. Equal replies that have come together are one step. */
final class Replies {
    private final InputStream input;
    private byte[] bytes = new byte[1 << 16];
    private int from, to;
    String reply; // the last one
    int count; // how many times it came

    Replies(InputStream input) {
        this.input = input;
    }

    /** Goes on to the next reply. A last line without a line feed is none. */
    boolean next() throws IOException {
        int end;
        while ((end = lineFeed()) < 0) {
            if (!more()) return false;
        }
        int length = end - from + 1;
        reply = new String(bytes, from, length - 1, StandardCharsets.ISO_8859_1);
        count = 0;
        int first = from;
        while (to - from >= length && Arrays.equals(bytes, first, first + length, bytes, from, from + length)) {
            from += length;
            count++;
        }
        return true;
    }

    private int lineFeed() {
        for (int at = from; at < to; at++) {
            if (bytes[at] == '\n') return at;
        }
        return -1;
    }

    private boolean more() throws IOException {
        System.arraycopy(bytes, from, bytes, 0, to - from);
        to -= from;
        from = 0;
        if (to == bytes.length) bytes = Arrays.copyOf(bytes, 2 * to);
        int read = input.read(bytes, to, bytes.length - to);
        if (read > 0) to += read;
        return read > 0;
    }
}
