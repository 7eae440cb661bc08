package jezundwa.owlapi;

import static org.junit.Assert.assertEquals;
import static org.junit.Assert.assertFalse;
import static org.junit.Assert.assertThrows;
import static org.junit.Assert.assertTrue;

import java.io.IOException;
import java.nio.file.Files;
import java.nio.file.Path;
import java.nio.file.attribute.PosixFilePermissions;
import java.util.List;
import java.util.Map;
import java.util.concurrent.CountDownLatch;
import java.util.concurrent.TimeUnit;
import java.util.concurrent.atomic.AtomicReference;
import org.junit.Rule;
import org.junit.Test;
import org.junit.rules.TemporaryFolder;
import org.semanticweb.owlapi.reasoner.ReasonerProgressMonitor;
import org.semanticweb.owlapi.reasoner.TimeOutException;

/** Calls of the program that go wrong, by scripts in its place; and what limits do, by the program itself. */
public class ProcessTest {
    private static final int LINES = 400_000;

    @Rule
    public final TemporaryFolder folder = new TemporaryFolder();

    private JezundwaConfiguration script(String commands) throws IOException {
        Path script = folder.newFolder().toPath().resolve("program");
        Files.writeString(script, "#!/bin/sh\n" + commands + "\n");
        Files.setPosixFilePermissions(script, PosixFilePermissions.fromString("rwxr-xr-x"));
        return Called.configuration().withProgram(script.toString());
    }

    private static JezundwaReasoner reasoner(JezundwaConfiguration configuration) {
        return new JezundwaReasonerFactory()
            .createReasoner(Ontologies.read("SubClassOf(:A :B)\nClassAssertion(:A :a)"), configuration);
    }

    @Test
    public void eachStatusIsAnExceptionOfItsOwn() throws IOException {
        Map<Integer, Class<? extends RuntimeException>> exceptions = Map.of(2, ProgramException.BadWords.class, 3,
            ProgramException.BadText.class, 4, ProgramException.OutsideLanguage.class, 5,
            ProgramException.LimitPassed.class, 6, ProgramException.ReadFault.class, 7,
            ProgramException.WriteFault.class, 9, ProgramException.NoMemory.class, 127,
            ProgramException.Crashed.class);
        for (Map.Entry<Integer, Class<? extends RuntimeException>> entry : exceptions.entrySet()) {
            JezundwaReasoner reasoner = reasoner(script("cat >/dev/null; echo told; exit " + entry.getKey()));
            RuntimeException thrown = assertThrows(entry.getValue(), reasoner::isConsistent);
            assertEquals(entry.getValue(), thrown.getClass());
            assertTrue(thrown.getMessage(), thrown.getMessage().contains("told"));
        }
    }

    @Test
    public void aSpentBudgetTellsWhatIsKnown() throws IOException {
        JezundwaReasoner reasoner = reasoner(script("cat >/dev/null; echo no; echo undecided; exit 8"));
        BudgetSpentException spent = assertThrows(BudgetSpentException.class, () -> reasoner.operation(
            current -> current.asker().follow(List.of(current.reductions().contradiction(List.of()),
                current.reductions().contradiction(List.of())), false)));
        assertEquals(List.of("no"), spent.known());
    }

    @Test
    public void aFaultNamesTheAxiomOfItsLine() throws IOException {
        JezundwaReasoner reasoner = reasoner(script("cat >/dev/null; echo limit parts line 5; exit 5"));
        String message = assertThrows(ProgramException.LimitPassed.class, reasoner::isConsistent).getMessage();
        assertTrue(message, message.startsWith("limit parts line 5: SubClassOf("));
    }

    @Test
    public void aKilledProgramIsNoAnswer() throws IOException {
        JezundwaReasoner reasoner = reasoner(script("echo no; kill -9 $$"));
        assertThrows(ProgramException.Crashed.class, reasoner::isConsistent);
    }

    @Test
    public void aProgramThatIsNotThereIsToldSo() {
        assertThrows(ProgramException.NotFound.class,
            () -> reasoner(Called.configuration().withProgram("/no/such/program")).isConsistent());
        assertThrows(ProgramException.NotFound.class,
            () -> reasoner(Called.configuration().withProgram("no-such-program")).isConsistent());
    }

    @Test
    public void aProgramThatReadsNothingIsHeardOut() throws IOException {
        StringBuilder many = new StringBuilder();
        for (int at = 0; at < 5_000; at++) {
            many.append("SubClassOf(:A").append(at).append(" :B)\n");
        }
        JezundwaReasoner reasoner = new JezundwaReasonerFactory().createReasoner(Ontologies.read(many.toString()),
            script("echo limit axioms line 7; exit 5"));
        assertThrows(ProgramException.LimitPassed.class, reasoner::isConsistent);
    }

    /** The output fills any pipe before the input is read: who does not read meanwhile waits for ever. */
    @Test
    public void longOutputIsReadWhileTheProgramRuns() throws IOException {
        ProgramCall call = new ProgramCall(
            script("seq 1 " + LINES + "; cat >/dev/null; seq 1 " + LINES).command(), List.of(), new byte[1 << 20]);
        ProgramAnswer answer = call.run(60_000);
        assertEquals(2 * LINES, answer.lines().size());
    }

    @Test
    public void aTimeOutEndsTheProgramAndSaysWhatIsKnown() throws Exception {
        Path mark = folder.getRoot().toPath().resolve("ended-by-itself");
        JezundwaReasoner reasoner =
            reasoner(script("echo yes 1; echo half; sleep 3; touch " + mark).withTimeOut(700));
        long start = System.nanoTime();
        CallTimeOutException late = assertThrows(CallTimeOutException.class, reasoner::isConsistent);
        assertTrue(TimeUnit.NANOSECONDS.toMillis(System.nanoTime() - start) < 3_000);
        assertEquals(List.of("yes 1", "half"), late.known());
        assertTrue(TimeOutException.class.isInstance(late));
        Thread.sleep(3_500);
        assertFalse("the program went on", Files.exists(mark));
    }

    @Test
    public void anInterruptFromAnotherThreadEndsTheProgram() throws Exception {
        JezundwaReasoner reasoner = reasoner(script("echo partial; sleep 20"));
        AtomicReference<RuntimeException> thrown = new AtomicReference<>();
        Thread asking = new Thread(() -> {
            try {
                reasoner.isConsistent();
            } catch (RuntimeException exception) {
                thrown.set(exception);
            }
        });
        asking.start();
        Thread.sleep(1_000);
        reasoner.interrupt();
        asking.join(5_000);
        assertEquals(CallInterruptedException.class, thrown.get().getClass());
        assertEquals(List.of("partial"), ((CallInterruptedException) thrown.get()).known());
    }

    @Test
    public void anInterruptOfTheAskingThreadEndsTheProgramToo() throws Exception {
        JezundwaReasoner reasoner = reasoner(script("sleep 20"));
        CountDownLatch ended = new CountDownLatch(1);
        Thread asking = new Thread(() -> {
            try {
                reasoner.isConsistent();
            } catch (CallInterruptedException expected) {
                if (Thread.currentThread().isInterrupted()) {
                    ended.countDown();
                }
            }
        });
        asking.start();
        Thread.sleep(500);
        asking.interrupt();
        assertTrue(ended.await(5, TimeUnit.SECONDS));
    }

    @Test
    public void anInterruptWhileNothingRunsEndsNothing() throws IOException {
        JezundwaReasoner reasoner = reasoner(script("cat >/dev/null; echo no"));
        reasoner.interrupt();
        assertTrue(reasoner.isConsistent());
    }

    @Test
    public void theMonitorHearsOfEachCall() throws IOException {
        StringBuilder heard = new StringBuilder();
        ReasonerProgressMonitor monitor = new ReasonerProgressMonitor() {
            private static final long serialVersionUID = 1L;

            @Override
            public void reasonerTaskStarted(String task) {
                heard.append(task);
            }

            @Override
            public void reasonerTaskStopped() {
                heard.append(" stopped. ");
            }

            @Override
            public void reasonerTaskProgressChanged(int value, int max) {
                heard.append(" changed");
            }

            @Override
            public void reasonerTaskBusy() {
                heard.append(" busy");
            }
        };
        assertTrue(reasoner(script("cat >/dev/null; echo no").withMonitor(monitor)).isConsistent());
        assertEquals("Testing busy stopped. ", heard.toString());
    }

    /** Questions of several threads are answered one at a time, each with its own answer. */
    @Test
    public void threadsMayAskAtOnce() throws Exception {
        JezundwaReasoner reasoner = reasoner(script("cat >/dev/null; sleep 0.1; echo no"));
        AtomicReference<Throwable> fault = new AtomicReference<>();
        List<Thread> threads = java.util.stream.IntStream.range(0, 8).mapToObj(number -> new Thread(() -> {
            try {
                assertTrue(reasoner.isConsistent());
            } catch (RuntimeException | AssertionError thrown) {
                fault.set(thrown);
            }
        })).toList();
        threads.forEach(Thread::start);
        for (Thread thread : threads) {
            thread.join();
        }
        assertEquals(null, fault.get());
    }

    @Test
    public void aBudgetOfOneStepIsSpent() {
        JezundwaReasoner reasoner = new JezundwaReasonerFactory().createReasoner(
            Ontologies.read("SubClassOf(:A ObjectSomeValuesFrom(:r :B))\nSubClassOf(:B ObjectSomeValuesFrom(:r :C))"
                + "\nClassAssertion(:A :a)"), Called.configuration().withBudget(1));
        assertThrows(BudgetSpentException.class, reasoner::isConsistent);
    }
}
