package jepmon.junit;

import java.lang.annotation.ElementType;
import java.lang.annotation.Retention;
import java.lang.annotation.RetentionPolicy;
import java.lang.annotation.Target;
import jepmon.Model;

/** The options of the monitor that a test method gets: {@code void test(@Judged(Model.MUTEX) Monitor monitor)}. */
@Retention(RetentionPolicy.RUNTIME)
@Target(ElementType.PARAMETER)
public @interface Judged {
    Model value() default Model.REGISTER;

    /** How many operations may be open at once, 1 to 64. */
    int concurrency() default 64;

    /** How many outcomes of a key are followed before it is unknown; 0 leaves it to the program. */
    int budget() default 0;

    /** Whether keys are judged by all their outcomes: no model is judged as its wide kind. */
    boolean byEnds() default false;

    /** Whether each event waits for its reply. */
    boolean waiting() default false;
}
