package jezundwa.owlapi;

import static org.junit.Assert.assertEquals;
import static org.junit.Assert.assertThrows;

import java.io.ByteArrayInputStream;
import java.io.ByteArrayOutputStream;
import java.nio.charset.StandardCharsets;
import java.util.List;
import org.junit.Test;
import org.semanticweb.owlapi.apibinding.OWLManager;
import org.semanticweb.owlapi.formats.FunctionalSyntaxDocumentFormat;
import org.semanticweb.owlapi.formats.ManchesterSyntaxDocumentFormat;
import org.semanticweb.owlapi.formats.N3DocumentFormat;
import org.semanticweb.owlapi.formats.NTriplesDocumentFormat;
import org.semanticweb.owlapi.formats.OWLXMLDocumentFormat;
import org.semanticweb.owlapi.formats.RDFJsonLDDocumentFormat;
import org.semanticweb.owlapi.formats.RDFXMLDocumentFormat;
import org.semanticweb.owlapi.formats.TrigDocumentFormat;
import org.semanticweb.owlapi.formats.TurtleDocumentFormat;
import org.semanticweb.owlapi.io.UnparsableOntologyException;
import org.semanticweb.owlapi.model.OWLDocumentFormat;
import org.semanticweb.owlapi.model.OWLOntology;
import org.semanticweb.owlapi.model.OWLOntologyCreationException;
import org.semanticweb.owlapi.model.OWLOntologyManager;
import org.semanticweb.owlapi.model.OWLOntologyStorageException;

/** The syntaxes that the OWL API reads: its jars have to be on the class path with all that they need. */
public class SyntaxTest {
    private static final List<OWLDocumentFormat> FORMATS = List.of(new FunctionalSyntaxDocumentFormat(),
        new RDFXMLDocumentFormat(), new OWLXMLDocumentFormat(), new TurtleDocumentFormat(),
        new ManchesterSyntaxDocumentFormat(), new NTriplesDocumentFormat(), new N3DocumentFormat(),
        new TrigDocumentFormat(), new RDFJsonLDDocumentFormat());

    private static OWLOntology read(byte[] text) throws OWLOntologyCreationException {
        return OWLManager.createOWLOntologyManager()
            .loadOntologyFromOntologyDocument(new ByteArrayInputStream(text));
    }

    @Test
    public void eachSyntaxIsReadAsTheSameOntology() throws OWLOntologyCreationException, OWLOntologyStorageException {
        OWLOntology ontology = Ontologies.read("Declaration(Class(:A))\nDeclaration(Class(:B))\nDeclaration(Class(:C))"
            + "\nDeclaration(ObjectProperty(:r))\nSubClassOf(:A ObjectSomeValuesFrom(:r :B))\nSubClassOf(:B :C)");
        OWLOntologyManager manager = ontology.getOWLOntologyManager();
        for (OWLDocumentFormat format : FORMATS) {
            ByteArrayOutputStream text = new ByteArrayOutputStream();
            manager.saveOntology(ontology, format, text);
            assertEquals(format.getKey(), ontology.getLogicalAxioms(), read(text.toByteArray()).getLogicalAxioms());
        }
    }

    /** All parsers are tried in turn, so that one whose jar is missing would end it with an error of its own. */
    @Test
    public void aTextInNoSyntaxIsToldSo() {
        byte[] text = "{ no ontology".getBytes(StandardCharsets.UTF_8);
        assertThrows(UnparsableOntologyException.class, () -> read(text));
    }
}
