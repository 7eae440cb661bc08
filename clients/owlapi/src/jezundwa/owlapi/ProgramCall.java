package jezundwa.owlapi;

import java.io.ByteArrayOutputStream;
import java.io.IOException;
import java.io.InputStream;
import java.io.OutputStream;
import java.nio.charset.StandardCharsets;
import java.util.ArrayList;
import java.util.List;
import java.util.concurrent.TimeUnit;

/**
 * One run of the program. Input is given and output taken by threads of their own while the program runs, so that none
 * waits for the other, however long both are. Another thread may end it by {@link #interrupt}.
 */
final class ProgramCall {
    private static final int LONGEST_NAMED_QUESTION = 300;
    private static final long LONGEST_WAIT_FOR_ENDED = 2_000;

    private final List<String> command;
    private final byte[] input;
    private final ByteArrayOutputStream output = new ByteArrayOutputStream();
    private final ByteArrayOutputStream faults = new ByteArrayOutputStream();
    private Process process;
    private boolean isInterrupted;

    ProgramCall(List<String> command, List<String> words, byte[] input) {
        this.command = new ArrayList<>(command);
        this.command.addAll(words);
        this.input = input;
    }

    /** Ends the program; {@link #run} throws then. */
    synchronized void interrupt() {
        isInterrupted = true;
        end();
    }

    ProgramAnswer run(long milliseconds) {
        try {
            start();
            Thread feeder = thread(this::feed);
            Thread reader = thread(() -> take(process.getInputStream(), output));
            Thread faultReader = thread(() -> take(process.getErrorStream(), faults));
            boolean hasEnded = await(milliseconds);
            end();
            for (Thread thread : List.of(feeder, reader, faultReader)) {
                thread.join(hasEnded ? 0 : LONGEST_WAIT_FOR_ENDED);
            }
            if (wasInterrupted()) {
                throw new CallInterruptedException(question(), lines(false));
            }
            if (!hasEnded) {
                throw new CallTimeOutException(question(), milliseconds, lines(false));
            }
            return new ProgramAnswer(ProgramStatus.of(process.exitValue()), lines(true),
                faults.toString(StandardCharsets.UTF_8).strip());
        } catch (IOException fault) {
            throw new ProgramException.NotFound(command.get(0) + " cannot be started: " + fault.getMessage());
        } catch (InterruptedException interruption) {
            interrupt();
            Thread.currentThread().interrupt();
            throw new CallInterruptedException(question(), lines(false));
        }
    }

    private synchronized void start() throws IOException {
        if (isInterrupted) {
            throw new CallInterruptedException(question(), List.of());
        }
        process = new ProcessBuilder(command).start();
    }

    private synchronized boolean wasInterrupted() {
        return isInterrupted;
    }

    private boolean await(long milliseconds) throws InterruptedException {
        if (milliseconds <= 0 || milliseconds == Long.MAX_VALUE) {
            process.waitFor();
            return true;
        }
        return process.waitFor(milliseconds, TimeUnit.MILLISECONDS);
    }

    /** Ends the program, so that it starts nothing more, and then what it has started: {@code shq} is a script. */
    private synchronized void end() {
        if (process != null && process.isAlive()) {
            List<ProcessHandle> started = process.descendants().toList();
            process.destroyForcibly();
            started.forEach(ProcessHandle::destroyForcibly);
        }
    }

    private void feed() {
        try (OutputStream stream = process.getOutputStream()) {
            stream.write(input);
        } catch (IOException closed) {
            // The program ended before it had read everything; its status says why.
        }
    }

    private static void take(InputStream stream, ByteArrayOutputStream into) {
        byte[] part = new byte[1 << 16];
        try (stream) {
            for (int length = stream.read(part); length >= 0; length = stream.read(part)) {
                synchronized (into) {
                    into.write(part, 0, length);
                }
            }
        } catch (IOException closed) {
            // The program was ended; what was read until then is what is known.
        }
    }

    private static Thread thread(Runnable work) {
        Thread thread = new Thread(work, "jezundwa");
        thread.setDaemon(true);
        thread.start();
        return thread;
    }

    /** The lines of the output; where the program was ended, without one that is cut off. */
    private List<String> lines(boolean hasEnded) {
        String text;
        synchronized (output) {
            text = output.toString(StandardCharsets.UTF_8);
        }
        return hasEnded ? text.lines().toList() : text.substring(0, text.lastIndexOf('\n') + 1).lines().toList();
    }

    private String question() {
        String words = String.join(" ", command.subList(1, command.size()));
        return words.length() <= LONGEST_NAMED_QUESTION ? words : words.substring(0, LONGEST_NAMED_QUESTION) + "..";
    }
}
