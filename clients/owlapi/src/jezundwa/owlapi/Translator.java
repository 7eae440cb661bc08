package jezundwa.owlapi;

import java.util.List;

/** Translates an ontology of OWL 2 into the language of the program by {@code shq approximate}. */
final class Translator {
    /** The translated text, which has each axiom on its line, and what the tool said of it. */
    record Translation(String text, String summary) {}

    private final JezundwaConfiguration configuration;
    private final CallRunner runner;

    Translator(JezundwaConfiguration configuration, CallRunner runner) {
        this.configuration = configuration;
        this.runner = runner;
    }

    Translation translate(String text) {
        ProgramAnswer answer = runner.run(new ProgramCall(configuration.translator(), List.of("approximate"),
            OntologyDocument.bytes(text)), "Translating");
        if (answer.status() != ProgramStatus.DONE) {
            throw new ProgramException.Crashed("shq approximate failed: " + answer.faults());
        }
        return new Translation(String.join("\n", answer.lines()) + "\n", answer.faults());
    }
}
