package jepmon;

import jepmon.junit.JepmonExtension;
import jepmon.junit.Judged;
import org.junit.jupiter.api.Test;
import org.junit.jupiter.api.extension.ExtendWith;

/** Three tests that the extension has to fail. */
@ExtendWith(JepmonExtension.class)
class FailsOnPurpose {
    @Test void wrongRead(Monitor monitor) {
        monitor.write(7, 1).ok();
        monitor.read(7).value(2);
    }

    /** Throws the verdict from this method. The extension throws it with the file of the history, once. */
    @Test void wrongReadThatWaits(@Judged(waiting = true) Monitor monitor) {
        monitor.write(8, 1).ok();
        monitor.read(8).value(2);
    }

    @Test void nothingWasOk(Monitor monitor) {
        monitor.write(7, 1).fail();
    }
}
