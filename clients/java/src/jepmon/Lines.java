package jepmon;

import java.nio.charset.StandardCharsets;
import java.util.Arrays;

/** Lines of ASCII that grow at their end. */
final class Lines {
    byte[] bytes = new byte[1 << 16];
    int length;

    Lines text(String text) {
        room(text.length());
        for (int i = 0; i < text.length(); i++) bytes[length++] = (byte) text.charAt(i);
        return this;
    }

    Lines number(long value) {
        if (value < 0) return text(Long.toString(value));
        room(20);
        int from = length;
        do {
            bytes[length++] = (byte) ('0' + value % 10);
            value /= 10;
        } while (value > 0);
        for (int i = from, j = length - 1; i < j; i++, j--) {
            byte digit = bytes[i];
            bytes[i] = bytes[j];
            bytes[j] = digit;
        }
        return this;
    }

    /** The lines without commands, each of which begins with {@code [:}. */
    Lines events() {
        if (!toString().contains("[:")) return this;
        Lines events = new Lines();
        for (String line : toString().split("(?<=\n)")) if (!line.startsWith("[:")) events.text(line);
        return events;
    }

    private void room(int more) {
        if (length + more > bytes.length) bytes = Arrays.copyOf(bytes, 2 * (length + more));
    }

    @Override public String toString() {
        return new String(bytes, 0, length, StandardCharsets.US_ASCII);
    }
}
