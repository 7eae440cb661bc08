package jezundwa.owlapi;

import java.util.List;
import org.semanticweb.owlapi.reasoner.ReasonerProgressMonitor;

/** Runs the calls of one operation after the other, within the time-out; another thread may interrupt the operation. */
final class CallRunner {
    private final JezundwaConfiguration configuration;
    private ProgramCall running;
    private boolean isInterrupted;

    CallRunner(JezundwaConfiguration configuration) {
        this.configuration = configuration;
    }

    /** Begins an operation; what was interrupted before does not count any more. */
    synchronized void begin() {
        isInterrupted = false;
    }

    /** Ends the call that runs, and refuses each other one of the same operation. */
    synchronized void interrupt() {
        isInterrupted = true;
        if (running != null) {
            running.interrupt();
        }
    }

    ProgramAnswer run(ProgramCall call, String task) {
        ReasonerProgressMonitor monitor = configuration.getProgressMonitor();
        monitor.reasonerTaskStarted(task);
        monitor.reasonerTaskBusy();
        setRunning(call, task);
        try {
            return call.run(configuration.getTimeOut());
        } finally {
            setRunning(null, task);
            monitor.reasonerTaskStopped();
        }
    }

    private synchronized void setRunning(ProgramCall call, String task) {
        if (call != null && isInterrupted) {
            throw new CallInterruptedException(task, List.of());
        }
        running = call;
    }
}
