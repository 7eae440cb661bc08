package jezundwa.owlapi;

import java.io.File;
import java.io.IOException;
import java.nio.file.Files;
import java.nio.file.Path;
import java.util.ArrayList;
import java.util.HashSet;
import java.util.List;
import java.util.Set;
import java.util.concurrent.TimeUnit;
import java.util.function.UnaryOperator;
import java.util.stream.Collectors;
import java.util.stream.Stream;
import org.semanticweb.owlapi.apibinding.OWLManager;
import org.semanticweb.owlapi.formats.FunctionalSyntaxDocumentFormat;
import org.semanticweb.owlapi.model.IRI;
import org.semanticweb.owlapi.model.OWLAxiom;
import org.semanticweb.owlapi.model.OWLClass;
import org.semanticweb.owlapi.model.OWLDataFactory;
import org.semanticweb.owlapi.model.OWLEquivalentClassesAxiom;
import org.semanticweb.owlapi.model.OWLException;
import org.semanticweb.owlapi.model.OWLOntology;

/**
 * Another reasoner, of Debian's package konclude. Each axiom is asked about by a class of its own, defined so that it
 * can have a member just where the axiom may fail; one classification tells of all of them.
 */
final class Konclude {
    private static final String PROGRAM = "Konclude";
    private static final OWLDataFactory FACTORY = OWLManager.getOWLDataFactory();

    /** Konclude ended without an answer: it was seen to crash on some ontologies. Such a case is passed over. */
    static final class NoAnswer extends RuntimeException {
        private static final long serialVersionUID = 1L;

        NoAnswer(String message) {
            super(message);
        }
    }

    private Konclude() {}

    static boolean isHere() {
        return Stream.of(System.getenv("PATH").split(File.pathSeparator))
            .anyMatch(folder -> new File(folder, PROGRAM).canExecute());
    }

    /** Whether each axiom is entailed; null where the ontology is inconsistent. */
    static List<Boolean> entailed(OWLOntology ontology, List<OWLAxiom> axioms) {
        return entailed(ontology, axioms, UnaryOperator.identity(), Called.LONGEST);
    }

    /** The same, where a case for which so many milliseconds do not suffice is passed over. */
    static List<Boolean> entailedWithin(long milliseconds, OWLOntology ontology, List<OWLAxiom> axioms) {
        return entailed(ontology, axioms, UnaryOperator.identity(), milliseconds);
    }

    /**
     * The same, where all is put in negation normal form first. Konclude was seen to miss that the complement of "at
     * most one" of a functional role has no member, and to crash on it.
     */
    static List<Boolean> entailedInNormalForm(OWLOntology ontology, List<OWLAxiom> axioms) {
        return entailed(ontology, axioms, OWLAxiom::getNNF, Called.LONGEST);
    }

    private static List<Boolean> entailed(OWLOntology ontology, List<OWLAxiom> axioms, UnaryOperator<OWLAxiom> form,
            long longest) {
        Set<OWLAxiom> all = new HashSet<>(ontology.getAxioms());
        ontology.getImportsClosure().forEach(imported -> all.addAll(imported.getAxioms()));
        List<OWLClass> failures = new ArrayList<>();
        for (int at = 0; at < axioms.size(); at++) {
            OWLClass failure = FACTORY.getOWLClass(IRI.create("urn:failure#" + at));
            failures.add(failure);
            all.add(FACTORY.getOWLEquivalentClassesAxiom(failure,
                axioms.get(at).accept(new FailureClass(FACTORY, at))));
        }
        Set<OWLClass> contradictory =
            contradictory(Ontologies.of(all.stream().map(form).collect(Collectors.toSet())), longest);
        if (contradictory.contains(FACTORY.getOWLThing())) {
            return null;
        }
        return failures.stream().map(contradictory::contains).toList();
    }

    /** The classes that Konclude calls equal to Nothing; Thing is among them where the ontology is inconsistent. */
    private static Set<OWLClass> contradictory(OWLOntology ontology, long longest) {
        Set<OWLClass> found = new HashSet<>();
        for (OWLAxiom axiom : classified(ontology, longest).getLogicalAxioms()) {
            if (axiom instanceof OWLEquivalentClassesAxiom equal && equal.contains(FACTORY.getOWLNothing())) {
                found.addAll(equal.getNamedClasses());
                if (equal.contains(FACTORY.getOWLThing())) {
                    found.add(FACTORY.getOWLThing());
                }
            }
        }
        return found;
    }

    /** The hierarchy as Konclude writes it. One worker alone was seen to wait for ever, so there are two. */
    static OWLOntology classified(OWLOntology ontology) {
        return classified(ontology, Called.LONGEST);
    }

    private static OWLOntology classified(OWLOntology ontology, long longest) {
        try {
            Path folder = Files.createTempDirectory("konclude");
            Path input = folder.resolve("input.ofn");
            Path output = folder.resolve("output.owl");
            ontology.getOWLOntologyManager().saveOntology(ontology, new FunctionalSyntaxDocumentFormat(),
                IRI.create(input.toUri()));
            Process process = new ProcessBuilder(PROGRAM, "classification", "-w", "2", "-i",
                input.toString(), "-o", output.toString()).redirectErrorStream(true)
                .redirectOutput(ProcessBuilder.Redirect.DISCARD).start();
            boolean hasEnded = process.waitFor(longest, TimeUnit.MILLISECONDS);
            process.destroyForcibly().waitFor();
            try {
                if (!hasEnded || process.exitValue() != 0 || !Files.exists(output)) {
                    throw new NoAnswer(hasEnded ? "status " + process.exitValue() : "no answer in time");
                }
                return OWLManager.createOWLOntologyManager().loadOntologyFromOntologyDocument(output.toFile());
            } finally {
                Files.delete(input);
                Files.deleteIfExists(output);
                Files.delete(folder);
            }
        } catch (IOException | InterruptedException | OWLException fault) {
            throw new IllegalStateException(fault);
        }
    }
}
