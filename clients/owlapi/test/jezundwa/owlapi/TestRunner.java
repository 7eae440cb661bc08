package jezundwa.owlapi;

import java.util.ArrayList;
import java.util.List;
import org.junit.runner.Description;
import org.junit.runner.JUnitCore;
import org.junit.runner.Request;
import org.junit.runner.Result;
import org.junit.runner.notification.Failure;
import org.junit.runner.notification.RunListener;

/** Runs test classes, and says what was not tried. */
public final class TestRunner extends RunListener {
    private final List<String> notTried = new ArrayList<>();
    private long started;

    private TestRunner() {}

    /** Words are classes, or single tests as {@code NamesTest.oneNameOfSeveralKinds}. */
    public static void main(String[] names) throws ClassNotFoundException {
        TestRunner runner = new TestRunner();
        JUnitCore core = new JUnitCore();
        core.addListener(runner);
        long start = System.nanoTime();
        int tests = 0;
        int failed = 0;
        for (String name : names) {
            String[] parts = name.split("\\.");
            Class<?> test = Class.forName("jezundwa.owlapi." + parts[0]);
            Result result = core.run(parts.length == 1 ? Request.aClass(test) : Request.method(test, parts[1]));
            tests += result.getRunCount();
            failed += result.getFailureCount();
        }
        runner.notTried.forEach(text -> System.out.println("not tried: " + text));
        System.out.println(tests + " tests, " + failed + " failed, " + runner.notTried.size() + " not tried, "
            + (System.nanoTime() - start) / 1_000_000_000 + " s");
        System.exit(failed == 0 && tests > 0 ? 0 : 1);
    }

    @Override
    public void testStarted(Description test) {
        started = System.nanoTime();
    }

    @Override
    public void testFinished(Description test) {
        System.out.println(test.getDisplayName() + " " + (System.nanoTime() - started) / 1_000_000 + " ms");
    }

    @Override
    public void testFailure(Failure failure) {
        System.out.println("FAILED " + failure.getTestHeader() + "\n" + failure.getTrimmedTrace());
    }

    @Override
    public void testAssumptionFailure(Failure failure) {
        notTried.add(failure.getTestHeader() + ": " + failure.getMessage());
    }
}
