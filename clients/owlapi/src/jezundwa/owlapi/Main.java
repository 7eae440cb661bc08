package jezundwa.owlapi;

import java.io.File;
import java.io.IOException;
import java.io.PrintStream;
import java.nio.charset.StandardCharsets;
import java.util.ArrayList;
import java.util.List;
import java.util.Optional;
import java.util.Set;
import java.util.TreeSet;
import java.util.stream.Collectors;
import org.semanticweb.owlapi.apibinding.OWLManager;
import org.semanticweb.owlapi.formats.OBODocumentFormat;
import org.semanticweb.owlapi.formats.PrefixDocumentFormat;
import org.semanticweb.owlapi.formats.TrigDocumentFormat;
import org.semanticweb.owlapi.io.FileDocumentSource;
import org.semanticweb.owlapi.io.OWLParserException;
import org.semanticweb.owlapi.io.StringDocumentSource;
import org.semanticweb.owlapi.io.UnparsableOntologyException;
import org.semanticweb.owlapi.model.OWLAxiom;
import org.semanticweb.owlapi.model.OWLClass;
import org.semanticweb.owlapi.model.OWLDataFactory;
import org.semanticweb.owlapi.model.OWLDocumentFormat;
import org.semanticweb.owlapi.model.OWLNamedIndividual;
import org.semanticweb.owlapi.model.OWLObject;
import org.semanticweb.owlapi.model.OWLOntology;
import org.semanticweb.owlapi.model.OWLOntologyCreationException;
import org.semanticweb.owlapi.model.OWLOntologyManager;
import org.semanticweb.owlapi.model.OWLRuntimeException;
import org.semanticweb.owlapi.model.parameters.Imports;
import org.semanticweb.owlapi.reasoner.InconsistentOntologyException;
import org.semanticweb.owlapi.reasoner.Node;
import org.semanticweb.owlapi.reasoner.TimeOutException;

/** The command line for pipelines: reads a file in any syntax of the OWL API. */
public final class Main {
    private static final int DONE = 0;
    private static final int FAILED = 1;
    private static final int BAD_WORDS = 2;
    private static final int UNDECIDED = 8;
    private static final String USAGE = """
        usage: java -jar jezundwa-owlapi.jar classify FILE [OPTION ..]
               java -jar jezundwa-owlapi.jar realize FILE [OPTION ..]
               java -jar jezundwa-owlapi.jar explain FILE [AXIOM] [OPTION ..]
               java -jar jezundwa-owlapi.jar repair FILE AXIOM [OPTION ..]

          classify  prints each class with the classes directly above it, and the contradictory ones
          realize   prints each individual with its most specific classes
          explain   prints every reason why AXIOM follows; without AXIOM, why each contradictory class is one
          repair    prints every way to stop it

        AXIOM is in functional-style syntax, with the prefixes of FILE.

          --outside strict|leave-out|approximate   what is done with axioms outside of the language (leave-out)
          --program PATH                           the program, or shq
          --budget STEPS                           how many steps of search a question may take
          --time MILLISECONDS                      how long a question may take

        Status: 0 done, 1 failed, 2 bad words, 8 undecided: the budget or the time was spent.
        """;

    private final List<String> words = new ArrayList<>();
    private final PrintStream out = new PrintStream(System.out, false, StandardCharsets.UTF_8);
    private JezundwaConfiguration configuration = new JezundwaConfiguration();
    private OWLOntology ontology;
    private OWLDataFactory factory;

    private Main() {}

    public static void main(String[] arguments) {
        System.exit(new Main().run(arguments));
    }

    private int run(String[] arguments) {
        try {
            if (arguments.length > 0 && arguments[0].equals("--help")) {
                out.print(USAGE);
            } else {
                readWords(arguments);
                work();
            }
        } catch (IllegalArgumentException badWords) {
            System.err.print(badWords.getMessage() == null ? USAGE : badWords.getMessage() + "\n\n" + USAGE);
            return BAD_WORDS;
        } catch (TimeOutException spent) {
            out.flush();
            System.err.println("undecided: " + spent.getMessage());
            return UNDECIDED;
        } catch (OWLOntologyCreationException | OWLRuntimeException fault) {
            out.flush();
            System.err.println(fault.getClass().getSimpleName() + ": " + fault.getMessage());
            return FAILED;
        }
        out.flush();
        return out.checkError() ? FAILED : DONE;
    }

    private void readWords(String[] arguments) {
        for (int at = 0; at < arguments.length; at++) {
            if (!arguments[at].startsWith("--")) {
                words.add(arguments[at]);
                continue;
            }
            if (at + 1 == arguments.length) {
                throw new IllegalArgumentException(arguments[at] + " needs a value");
            }
            readOption(arguments[at], arguments[++at]);
        }
        int most = words.isEmpty() ? 0 : List.of("explain", "repair").contains(words.get(0)) ? 3 : 2;
        if (words.size() < 2 || words.size() > most || words.get(0).equals("repair") && words.size() < most) {
            throw new IllegalArgumentException();
        }
    }

    private void readOption(String name, String value) {
        switch (name) {
            case "--outside" -> configuration =
                configuration.withOutside(OutsidePolicy.valueOf(value.toUpperCase().replace('-', '_')));
            case "--program" -> configuration = configuration.withProgram(value);
            case "--budget" -> configuration = configuration.withBudget(Long.parseLong(value));
            case "--time" -> configuration = configuration.withTimeOut(Long.parseLong(value));
            default -> throw new IllegalArgumentException(name + " is no option");
        }
    }

    private void work() throws OWLOntologyCreationException {
        switch (words.get(0)) {
            case "classify", "realize", "explain", "repair" -> { }
            default -> throw new IllegalArgumentException(words.get(0) + " is no job");
        }
        ontology = read(new File(words.get(1)));
        factory = ontology.getOWLOntologyManager().getOWLDataFactory();
        JezundwaReasoner reasoner = new JezundwaReasonerFactory(configuration).createReasoner(ontology);
        if (!reasoner.coverage().isWhole()) {
            System.err.println(reasoner.coverage());
        }
        switch (words.get(0)) {
            case "classify" -> classify(reasoner);
            case "realize" -> realize(reasoner);
            case "explain" -> explain(reasoner);
            default -> printSets("repair", new JezundwaExplanations(reasoner).repairs(axiom(words.get(2))));
        }
    }

    /** Reads a file in whichever syntax it is. */
    private static OWLOntology read(File file) throws OWLOntologyCreationException {
        try {
            Optional<OWLDocumentFormat> format = DocumentSyntax.formatOf(file);
            return format.isPresent() ? readAs(format.get(), file) : readByTrial(file);
        } catch (IOException unreadable) {
            throw new OWLRuntimeException(file + " cannot be read", unreadable);
        }
    }

    private static OWLOntology readAs(OWLDocumentFormat format, File file) throws OWLOntologyCreationException {
        try {
            return OWLManager.createOWLOntologyManager()
                .loadOntologyFromOntologyDocument(new FileDocumentSource(file, format));
        } catch (UnparsableOntologyException unreadable) {
            String fault = unreadable.getExceptions().values().stream().findFirst()
                .map(OWLParserException::getMessage).map(Main::inOneLine).orElse("nothing is known");
            throw new OWLRuntimeException(file + " is not read as " + format.getKey() + ": " + fault, unreadable);
        }
    }

    /** What a parser says, without the name of its exception and the list of what it would have taken. */
    private static String inOneLine(String message) {
        return message.replaceFirst("^([\\w.]+Exception: )+", "").split("Was expecting|Expected one of")[0]
            .replaceAll("\\s+", " ").strip();
    }

    /** Lets the OWL API try each of its parsers. */
    private static OWLOntology readByTrial(File file) throws OWLOntologyCreationException {
        OWLOntologyManager manager = OWLManager.createOWLOntologyManager();
        UnparsableOntologyException cause = null;
        try {
            OWLOntology found = manager.loadOntologyFromOntologyDocument(file);
            // These parsers take nearly any lines, or what is cut off; and no file in OBO or TriG comes here.
            OWLDocumentFormat format = manager.getOntologyFormat(found);
            if (!(format instanceof OBODocumentFormat || format instanceof TrigDocumentFormat)) {
                return found;
            }
        } catch (UnparsableOntologyException unreadable) {
            cause = unreadable;
        }
        throw new OWLRuntimeException(file + " is in no syntax that the OWL API reads", cause);
    }

    private void classify(JezundwaReasoner reasoner) {
        if (!reasoner.isConsistent()) {
            out.println("inconsistent");
            return;
        }
        for (OWLClass type : new TreeSet<>(ontology.getClassesInSignature(Imports.INCLUDED))) {
            Node<OWLClass> equal = reasoner.getEquivalentClasses(type);
            if (equal.isBottomNode()) {
                out.println(type + " contradictory");
            } else if (!equal.isTopNode()) {
                out.println(type + " under " + listed(reasoner.getSuperClasses(type, true).getNodes()));
            }
        }
    }

    private void realize(JezundwaReasoner reasoner) {
        for (OWLNamedIndividual individual : new TreeSet<>(ontology.getIndividualsInSignature(Imports.INCLUDED))) {
            out.println(individual + " types " + listed(reasoner.getTypes(individual, true).getNodes()));
        }
    }

    private static <E extends OWLObject> String listed(Set<Node<E>> nodes) {
        return nodes.stream().map(node -> new TreeSet<>(node.getEntities()).first().toString()).sorted()
            .collect(Collectors.joining(" "));
    }

    private void explain(JezundwaReasoner reasoner) {
        JezundwaExplanations explanations = new JezundwaExplanations(reasoner);
        if (words.size() > 2) {
            printSets("reason", explanations.justifications(axiom(words.get(2))));
            return;
        }
        if (!reasoner.isConsistent()) {
            out.println("inconsistent");
            printSets("reason", explanations.justifications(contradictory(factory.getOWLThing())));
            return;
        }
        for (OWLClass type : new TreeSet<>(reasoner.getUnsatisfiableClasses().getEntitiesMinusBottom())) {
            out.println(type + " contradictory");
            printSets("reason", explanations.justifications(contradictory(type)));
        }
    }

    private OWLAxiom contradictory(OWLClass type) {
        return factory.getOWLSubClassOfAxiom(type, factory.getOWLNothing());
    }

    private void printSets(String name, AxiomSets found) {
        out.println(name + "s " + found.sets().size() + (found.isWhole() ? "" : " and perhaps more"));
        int number = 0;
        for (Set<OWLAxiom> set : found.sets()) {
            out.println(name + " " + ++number);
            new TreeSet<>(set).forEach(axiom -> out.println("  " + axiom));
        }
        out.flush();
        if (!found.isWhole()) {
            throw new BudgetSpentException("all " + name + "s", List.of());
        }
    }

    /** Reads an axiom by the OWL API's own reader, as the one axiom of a document with the ontology's prefixes. */
    private OWLAxiom axiom(String text) {
        StringBuilder document = new StringBuilder();
        OWLDocumentFormat format = ontology.getOWLOntologyManager().getOntologyFormat(ontology);
        if (format instanceof PrefixDocumentFormat prefixes) {
            prefixes.getPrefixName2PrefixMap().forEach((name, iri) ->
                document.append("Prefix(").append(name).append("=<").append(iri).append(">)\n"));
        }
        document.append("Ontology(\n").append(text).append("\n)\n");
        try {
            OWLOntology read = OWLManager.createOWLOntologyManager()
                .loadOntologyFromOntologyDocument(new StringDocumentSource(document.toString()));
            if (read.getLogicalAxioms().size() == 1) {
                return read.getLogicalAxioms().iterator().next();
            }
        } catch (OWLOntologyCreationException unreadable) {
            // What each parser of the library says of the document is no help with one axiom.
        }
        throw new IllegalArgumentException("no axiom: " + text);
    }
}
