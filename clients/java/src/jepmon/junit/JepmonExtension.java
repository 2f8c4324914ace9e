package jepmon.junit;

import jepmon.Monitor;
import jepmon.Model;
import jepmon.Options;
import jepmon.Verdict;
import org.junit.jupiter.api.extension.ExtensionContext;
import org.junit.jupiter.api.extension.ParameterContext;
import org.junit.jupiter.api.extension.ParameterResolver;
import org.junit.jupiter.api.extension.TestExecutionExceptionHandler;

/**
 * Gives a test method of JUnit 5 a monitor: {@code @ExtendWith(JepmonExtension.class)}, and a parameter {@code Monitor monitor}. The
 * monitor ends with the test, and the test fails if the history is not legal, or if no operation was ok.
 */
public final class JepmonExtension implements ParameterResolver, TestExecutionExceptionHandler {
    /** Closes the monitor when the test ends. */
    private record Running(Monitor monitor) implements ExtensionContext.Store.CloseableResource {
        @Override public void close() {
            monitor.close();
            if (monitor.counts().keySet().stream().noneMatch(what -> what.endsWith(" ok"))) {
                throw new AssertionError("no operation was ok, so nothing was judged: " + monitor.counts());
            }
        }
    }

    @Override public boolean supportsParameter(ParameterContext parameter, ExtensionContext context) {
        return parameter.getParameter().getType() == Monitor.class;
    }

    @Override public Object resolveParameter(ParameterContext parameter, ExtensionContext context) {
        Judged judged = parameter.getParameter().getAnnotation(Judged.class);
        Options options = Options.of(judged == null ? Model.REGISTER : judged.value());
        if (judged != null) options = options.concurrency(judged.concurrency()).budget(judged.budget());
        if (judged != null && judged.byEnds()) options = options.byEnds();
        Monitor monitor = Monitor.start(judged != null && judged.waiting() ? options.waiting() : options);
        monitors(context).put(parameter.getIndex(), new Running(monitor));
        return monitor;
    }

    /** Replaces the verdict that a test threw by the one at the end of its monitor, which has the cause and the file of the history. */
    @Override public void handleTestExecutionException(ExtensionContext context, Throwable thrown) throws Throwable {
        ExtensionContext.Store monitors = monitors(context);
        for (int index = 0; thrown instanceof Verdict && index < context.getRequiredTestMethod().getParameterCount(); index++) {
            Running running = monitors.get(index, Running.class);
            Verdict failure = running == null ? null : running.monitor.failure();
            if (failure == null || !failure.reply.equals(((Verdict) thrown).reply)) continue;
            try {
                monitors.remove(index, Running.class).close();
            } catch (Verdict whole) {
                whole.setStackTrace(thrown.getStackTrace()); // the line of the test
                throw whole;
            }
        }
        throw thrown;
    }

    private static ExtensionContext.Store monitors(ExtensionContext context) {
        return context.getStore(ExtensionContext.Namespace.create(JepmonExtension.class, context.getUniqueId()));
    }
}
