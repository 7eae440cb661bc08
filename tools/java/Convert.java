import org.semanticweb.owlapi.apibinding.OWLManager;
import org.semanticweb.owlapi.formats.FunctionalSyntaxDocumentFormat;
import org.semanticweb.owlapi.formats.ManchesterSyntaxDocumentFormat;
import org.semanticweb.owlapi.formats.NTriplesDocumentFormat;
import org.semanticweb.owlapi.formats.OBODocumentFormat;
import org.semanticweb.owlapi.formats.OWLXMLDocumentFormat;
import org.semanticweb.owlapi.formats.PrefixDocumentFormat;
import org.semanticweb.owlapi.formats.RDFJsonLDDocumentFormat;
import org.semanticweb.owlapi.formats.RDFXMLDocumentFormat;
import org.semanticweb.owlapi.formats.TurtleDocumentFormat;
import org.semanticweb.owlapi.io.StreamDocumentSource;
import org.semanticweb.owlapi.io.StreamDocumentTarget;
import org.semanticweb.owlapi.io.UnparsableOntologyException;
import org.semanticweb.owlapi.model.IRI;
import org.semanticweb.owlapi.model.MissingImportHandlingStrategy;
import org.semanticweb.owlapi.model.OWLDocumentFormat;
import org.semanticweb.owlapi.model.OWLException;
import org.semanticweb.owlapi.model.OWLOntology;
import org.semanticweb.owlapi.model.OWLOntologyCreationException;
import org.semanticweb.owlapi.model.OWLOntologyLoaderConfiguration;
import org.semanticweb.owlapi.model.OWLOntologyManager;
import org.xml.sax.SAXParseException;

/** Writes an ontology of a syntax that the OWL API reads in functional-style syntax: Convert SYNTAX < FILE > OFN. */
public final class Convert {
    /** Relative names of a file that says no base are below this one, wherever the file is. */
    private static final IRI BASE = IRI.create("file:/ontology");
    private static final IRI NOWHERE = IRI.create("file:///nonexistent/import");
    private static final int LONGEST = 300;

    /** The format of a syntax by its name, so that no parser of another syntax is tried, which may take too much. */
    private static OWLDocumentFormat formatOf(String syntax) {
        switch (syntax) {
            case "RDF/XML":
                return new RDFXMLDocumentFormat();
            case "OWL/XML":
                return new OWLXMLDocumentFormat();
            case "Turtle":
                return new TurtleDocumentFormat();
            case "Manchester syntax":
                return new ManchesterSyntaxDocumentFormat();
            case "OBO":
                return new OBODocumentFormat();
            case "JSON-LD":
                return new RDFJsonLDDocumentFormat();
            case "N-Triples":
                return new NTriplesDocumentFormat();
            default:
                throw new IllegalArgumentException("no format for " + syntax);
        }
    }

    /** A manager that fetches nothing: each import is looked for where there is no file. */
    private static OWLOntologyManager manager() {
        OWLOntologyManager manager = OWLManager.createOWLOntologyManager();
        manager.getIRIMappers().add(imported -> NOWHERE);
        return manager;
    }

    private static OWLOntology read(OWLOntologyManager manager, OWLDocumentFormat format)
            throws OWLOntologyCreationException {
        OWLOntologyLoaderConfiguration configuration = new OWLOntologyLoaderConfiguration()
            .setMissingImportHandlingStrategy(MissingImportHandlingStrategy.SILENT);
        return manager.loadOntologyFromOntologyDocument(new StreamDocumentSource(System.in, BASE, format, null),
            configuration);
    }

    /** The format to write, with the prefixes of the file. */
    private static FunctionalSyntaxDocumentFormat functional(OWLDocumentFormat given) {
        FunctionalSyntaxDocumentFormat format = new FunctionalSyntaxDocumentFormat();
        if (given instanceof PrefixDocumentFormat) {
            format.copyPrefixesFrom((PrefixDocumentFormat) given);
        }
        return format;
    }

    private static Throwable first(Throwable fault) {
        if (fault instanceof UnparsableOntologyException) {
            return ((UnparsableOntologyException) fault).getExceptions().values().stream()
                .map(Convert::first).findFirst().orElse(fault);
        }
        return fault.getCause() == null || fault instanceof SAXParseException ? fault : first(fault.getCause());
    }

    /** What is wrong with the text, in one line, without what the parser would have taken. */
    private static String told(Throwable fault) {
        Throwable first = first(fault);
        String message = first.getMessage() == null ? first.getClass().getSimpleName() : first.getMessage();
        String line = message.split("Was expecting|Expected one of")[0]
            .replaceAll("\\[Source: [^;]*; ([^\\]]*)\\]", "$1").replaceAll("\\s+", " ").trim();
        String place = first instanceof SAXParseException
            ? "line " + ((SAXParseException) first).getLineNumber() + ": " : "";
        return place + line.substring(0, Math.min(line.length(), LONGEST));
    }

    public static void main(String[] words) {
        OWLOntologyManager manager = manager();
        try {
            OWLOntology ontology = read(manager, formatOf(words[0]));
            OWLDocumentFormat given = manager.getOntologyFormat(ontology);
            manager.saveOntology(ontology, functional(given), new StreamDocumentTarget(System.out));
        } catch (OWLException | RuntimeException | StackOverflowError | OutOfMemoryError fault) {
            System.err.println(told(fault));
            System.exit(1);
        }
    }
}
