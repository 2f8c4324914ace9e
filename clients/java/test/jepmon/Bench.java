package jepmon;

/** Measures operations, each of two events: a write or a read of a key of the thread's own. {@code Bench true 5 100000}: waits, threads, operations. */
public final class Bench {
    private Bench() {}

    public static void main(String[] arguments) throws Exception {
        boolean waits = Boolean.parseBoolean(arguments[0]);
        int clients = Integer.parseInt(arguments[1]), operations = Integer.parseInt(arguments[2]);
        Options options = Options.of(Model.REGISTER);
        double least = Double.MAX_VALUE;
        try (Monitor monitor = Monitor.start(waits ? options.waiting() : options)) {
            for (int round = 0; round < 3; round++) {
                long begun = System.nanoTime();
                monitor.run(clients, client -> measure(monitor, client, operations / clients));
                monitor.reset();
                least = Math.min(least, (System.nanoTime() - begun) / 1e9);
            }
        }
        System.out.printf("%.0f events a second%n", 2 * operations / least);
    }

    private static void measure(Monitor monitor, int client, int operations) {
        for (int i = 0; i < operations; i++) {
            int key = client * 64 + i / 2 % 64;
            if (i % 2 == 0) monitor.write(key, i).ok();
            else monitor.read(key).value(i - 1);
        }
    }
}
