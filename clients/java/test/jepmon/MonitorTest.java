package jepmon;

import static org.junit.jupiter.api.Assertions.assertEquals;
import static org.junit.jupiter.api.Assertions.assertThrows;
import static org.junit.jupiter.api.Assertions.assertTrue;

import java.nio.file.Files;
import java.nio.file.Path;
import java.util.List;
import java.util.Map;
import jepmon.junit.JepmonExtension;
import jepmon.junit.Judged;
import org.junit.jupiter.api.Test;
import org.junit.jupiter.api.extension.ExtendWith;
import org.junit.jupiter.api.io.TempDir;

class MonitorTest {
    @TempDir Path out;

    private Options options() {
        return Options.of(Model.REGISTER).out(out);
    }

    @Test void exceptionIsAnUnknownOutcome() {
        Monitor monitor = Monitor.start(options());
        assertThrows(IllegalArgumentException.class, () -> {
            try (Operation write = monitor.write(7, 1)) {
                throw new IllegalArgumentException("as a timeout");
            }
        });
        monitor.read(7).value(1);
        monitor.close();
        assertEquals(Map.of("write info", 1L, "read ok", 1L), monitor.counts());
    }

    @Test void verdictStopsTheTest() throws Exception {
        Monitor monitor = Monitor.start(options().waiting());
        monitor.write(7, 1).ok();
        Verdict first = assertThrows(Verdict.class, () -> monitor.read(7).value(2));
        assertEquals("illegal key 7 index 5", first.reply);
        assertTrue(first.getMessage().contains("5 {:type :ok"), first.getMessage());
        assertThrows(Verdict.class, () -> monitor.write(7, 3));
        Verdict last = assertThrows(Verdict.class, monitor::close);
        String file = last.getMessage().substring(last.getMessage().indexOf("history: ") + 9);
        assertEquals(6, Files.readAllLines(Path.of(file)).size());
    }

    @Test void operationEndsOnce() {
        Monitor monitor = Monitor.start(options());
        Operation write = monitor.write(1, 1);
        write.ok();
        assertThrows(IllegalStateException.class, write::fail);
        write.close();
        monitor.close();
        assertThrows(IllegalStateException.class, () -> monitor.write(1, 2));
    }

    @Test void clientsFault() {
        Monitor monitor = Monitor.start(options());
        assertThrows(InterruptedException.class, () -> monitor.run(3, client -> {
            if (client == 1) throw new InterruptedException();
        }));
        monitor.close();
    }

    @Test void causeOfReport() {
        String json = "{\"bad_keys\": [{\"cause\": {\"headline\": \"Client 0 read 2.\", \"sentences\": [\"It held \\\"1\\\".\"]}}]}";
        assertEquals(List.of("Client 0 read 2.", "  It held \"1\"."), History.causeOf(json));
        assertEquals(List.of(), History.causeOf("{}"));
    }

    @Test @ExtendWith(JepmonExtension.class)
    void extension(@Judged(value = Model.MUTEX, waiting = true) Monitor monitor) {
        monitor.acquire(1).ok();
        monitor.acquire(1).fail();
        monitor.release(1).ok();
    }
}
