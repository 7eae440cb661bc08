package jezundwa.owlapi;

import java.nio.charset.StandardCharsets;
import java.util.ArrayList;
import java.util.Collection;
import java.util.LinkedHashMap;
import java.util.LinkedHashSet;
import java.util.List;
import java.util.Map;
import java.util.Set;
import java.util.TreeMap;
import java.util.TreeSet;
import org.semanticweb.owlapi.model.IRI;
import org.semanticweb.owlapi.model.OWLAxiom;
import org.semanticweb.owlapi.model.OWLClass;
import org.semanticweb.owlapi.model.OWLClassExpression;
import org.semanticweb.owlapi.model.OWLDataFactory;
import org.semanticweb.owlapi.model.OWLDataProperty;
import org.semanticweb.owlapi.model.OWLNamedIndividual;
import org.semanticweb.owlapi.model.OWLObjectProperty;
import org.semanticweb.owlapi.model.OWLOntology;
import org.semanticweb.owlapi.model.parameters.Imports;

/**
 * The imports closure of an ontology at one moment, as the program is to read it: a declaration for each name, and then
 * each axiom on a line of its own, so that the line of an axiom in an answer leads back to it.
 */
final class OntologyDocument {
    /** The language of the program, as a profile of the OWL API. */
    static final IRI PROFILE = IRI.create("urn:jezundwa:SHQ");
    /** How many brackets may be open in a text that the program reads. */
    private static final int MOST_OPEN = 64;

    private final Names names = new Names();
    private final Set<OWLAxiom> axioms;
    private final TreeMap<Integer, OWLAxiom> axiomsByLine = new TreeMap<>();
    private final SimpleRoles simple;
    private final Rewriting rewriting;
    private final Coverage coverage;
    private final DocumentText text;
    private final DocumentText terms;

    OntologyDocument(OWLOntology root, JezundwaConfiguration configuration, Translator translator) {
        OWLDataFactory factory = root.getOWLOntologyManager().getOWLDataFactory();
        axioms = logicalAxioms(root);
        rewriting = new Rewriting(factory, new Helpers(factory, "axiom"));
        Map<OWLAxiom, List<OWLAxiom>> rewritten = new LinkedHashMap<>();
        axioms.forEach(axiom -> rewritten.put(axiom, rewriting.of(axiom)));
        simple = simpleRoles(rewritten.values());
        Map<OWLAxiom, String> outside = new LinkedHashMap<>();
        String own = write(root, rewritten, configuration.outside(), outside);
        if (configuration.outside() == OutsidePolicy.APPROXIMATE && !outside.isEmpty()) {
            Translator.Translation translation = translator.translate(own);
            text = new DocumentText(translation.text());
            coverage = new Coverage(configuration.outside(), outside, translation.summary());
        } else {
            text = new DocumentText(own);
            coverage = new Coverage(configuration.outside(), outside, "");
        }
        terms = text.withoutAssertions();
    }

    /** The axioms of an ontology with its imports, in a fixed order, so that it is always the same text. */
    static Set<OWLAxiom> logicalAxioms(OWLOntology root) {
        Set<OWLAxiom> all = new TreeSet<>();
        for (OWLOntology ontology : root.getImportsClosure()) {
            all.addAll(ontology.getLogicalAxioms());
        }
        return new LinkedHashSet<>(all);
    }

    /** By the axioms on roles that are in the language; what is left out makes no role transitive. */
    private SimpleRoles simpleRoles(Collection<List<OWLAxiom>> rewritten) {
        List<OWLAxiom> inside = new ArrayList<>();
        SimpleRoles all = new SimpleRoles(List.of());
        for (List<OWLAxiom> group : rewritten) {
            List<String> found = new ArrayList<>();
            AxiomText text = new AxiomText(names, all, found::add);
            group.forEach(text::of);
            if (found.isEmpty()) {
                inside.addAll(group);
            }
        }
        return new SimpleRoles(inside);
    }

    private String write(OWLOntology root, Map<OWLAxiom, List<OWLAxiom>> rewritten, OutsidePolicy policy,
            Map<OWLAxiom, String> outside) {
        StringBuilder all = new StringBuilder("Ontology(\n");
        writeDeclarations(root, all);
        int line = 1 + (int) all.chars().filter(sign -> sign == '\n').count();
        for (Map.Entry<OWLAxiom, List<OWLAxiom>> entry : rewritten.entrySet()) {
            List<String> found = new ArrayList<>();
            String written = written(entry.getValue(), found);
            if (!found.isEmpty()) {
                outside.put(entry.getKey(), found.get(0));
                if (policy == OutsidePolicy.STRICT) {
                    throw new OutsideAxiomException(entry.getKey(), found.get(0));
                }
                if (policy == OutsidePolicy.LEAVE_OUT) {
                    continue;
                }
            }
            axiomsByLine.put(line, entry.getKey());
            all.append(written).append('\n');
            line += 1 + (int) written.chars().filter(sign -> sign == '\n').count();
        }
        axiomsByLine.put(line, null);
        return all.append(")\n").toString();
    }

    private String written(List<OWLAxiom> group, List<String> outside) {
        AxiomText axiomText = new AxiomText(names, simple, outside::add);
        String line = String.join(" ", group.stream().map(axiomText::of).toList());
        if (nesting(line) + 1 > MOST_OPEN) {
            outside.add("nesting");
        }
        return line;
    }

    private static int nesting(String line) {
        int depth = 0;
        int deepest = 0;
        for (int at = 0; at < line.length(); at++) {
            depth += line.charAt(at) == '(' ? 1 : line.charAt(at) == ')' ? -1 : 0;
            deepest = Math.max(deepest, depth);
        }
        return deepest;
    }

    private void writeDeclarations(OWLOntology root, StringBuilder all) {
        for (OWLClass type : new TreeSet<>(root.getClassesInSignature(Imports.INCLUDED))) {
            writeDeclaration("Class", names.of(type), type.isBuiltIn(), all);
        }
        for (OWLObjectProperty role : new TreeSet<>(root.getObjectPropertiesInSignature(Imports.INCLUDED))) {
            writeDeclaration("ObjectProperty", names.of(role), role.isBuiltIn(), all);
        }
        for (OWLNamedIndividual individual : new TreeSet<>(root.getIndividualsInSignature(Imports.INCLUDED))) {
            writeDeclaration("NamedIndividual", names.of(individual), false, all);
        }
        for (OWLDataProperty property : new TreeSet<>(root.getDataPropertiesInSignature(Imports.INCLUDED))) {
            writeDeclaration("DataProperty", names.of(property), property.isBuiltIn(), all);
        }
    }

    private static void writeDeclaration(String kind, String name, boolean isBuiltIn, StringBuilder all) {
        if (!isBuiltIn) {
            all.append("Declaration(").append(kind).append('(').append(name).append("))\n");
        }
    }

    Names names() {
        return names;
    }

    /** The logical axioms of the ontology at that moment. */
    Set<OWLAxiom> axioms() {
        return axioms;
    }

    Coverage coverage() {
        return coverage;
    }

    DocumentText text() {
        return text;
    }

    /** The document without its assertions. */
    DocumentText terms() {
        return terms;
    }

    /** The axiom of the ontology that stands at a line; null where none does. */
    OWLAxiom axiomAtLine(int line) {
        Map.Entry<Integer, OWLAxiom> entry = axiomsByLine.floorEntry(line);
        return entry == null ? null : entry.getValue();
    }

    /** The axiom of a number; null for one that stands behind those of the ontology. */
    OWLAxiom axiomOf(int number) {
        return axiomAtLine(text.lineOf(number));
    }

    /** Axioms of a question as the program reads them. */
    List<String> texts(List<OWLAxiom> questionAxioms) {
        List<String> outside = new ArrayList<>();
        AxiomText axiomText = new AxiomText(names, simple, outside::add);
        List<String> texts = new ArrayList<>();
        for (OWLAxiom axiom : questionAxioms) {
            rewriting.of(axiom).forEach(part -> texts.add(axiomText.of(part)));
        }
        refuse(outside);
        return texts;
    }

    String text(OWLAxiom statement) {
        List<String> outside = new ArrayList<>();
        String written = new AxiomText(names, simple, outside::add).of(statement);
        refuse(outside);
        return written;
    }

    String text(OWLClassExpression expression) {
        List<String> outside = new ArrayList<>();
        String written = new FunctionalText(names, simple, outside::add).of(expression);
        refuse(outside);
        return written;
    }

    private static void refuse(List<String> outside) {
        if (!outside.isEmpty()) {
            throw new ProgramException.OutsideLanguage(outside.get(0) + " is outside of the language");
        }
    }

    /** What the program said of a text, where it names a line, with the axiom there. */
    String explained(String fault) {
        String[] words = fault.split(" ");
        boolean hasLine = words.length > 2 && words[words.length - 2].equals("line");
        if (!hasLine) {
            return fault;
        }
        OWLAxiom axiom = axiomAtLine(Integer.parseInt(words[words.length - 1]));
        return axiom == null ? fault : fault + ": " + axiom;
    }

    static byte[] bytes(String text) {
        return text.getBytes(StandardCharsets.UTF_8);
    }
}
