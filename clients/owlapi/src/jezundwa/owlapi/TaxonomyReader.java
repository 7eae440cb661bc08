package jezundwa.owlapi;

import java.util.ArrayList;
import java.util.Arrays;
import java.util.HashMap;
import java.util.LinkedHashSet;
import java.util.List;
import java.util.Map;
import java.util.Objects;
import java.util.Set;
import java.util.stream.Collectors;
import org.semanticweb.owlapi.model.IRI;
import org.semanticweb.owlapi.model.OWLClass;
import org.semanticweb.owlapi.model.OWLDataFactory;
import org.semanticweb.owlapi.reasoner.Node;
import org.semanticweb.owlapi.reasoner.impl.OWLClassNode;

/**
 * Reads the answer of {@code classify}: the line {@code consistent}, one with the contradictory classes, one with those
 * that hold everything, and for each other group of equal classes one with the groups directly above it.
 */
final class TaxonomyReader {
    private static final String UNDER = " under ";

    private final Names names;
    private final OWLDataFactory factory;
    private final Map<String, Node<OWLClass>> nodesByName = new HashMap<>();
    private final List<Node<OWLClass>> helpers = new ArrayList<>();

    private TaxonomyReader(Names names, OWLDataFactory factory) {
        this.names = names;
        this.factory = factory;
    }

    static Hierarchy<OWLClass> read(List<String> lines, Names names, OWLDataFactory factory) {
        return new TaxonomyReader(names, factory).hierarchy(lines);
    }

    private Hierarchy<OWLClass> hierarchy(List<String> lines) {
        Node<OWLClass> bottom = node(lines.get(1), factory.getOWLNothing());
        Node<OWLClass> top = node(lines.get(2), factory.getOWLThing());
        nodesByName.put("owl:Thing", top);
        Hierarchy<OWLClass> hierarchy = new Hierarchy<>(top, bottom);
        List<String> groups = lines.subList(3, lines.size());
        groups.forEach(line -> hierarchy.add(node(line.substring(0, line.indexOf(UNDER)), null)));
        for (String line : groups) {
            Node<OWLClass> child = nodesByName.get(line.split(" ")[1]);
            for (String parent : line.substring(line.indexOf(UNDER) + UNDER.length()).split(" ")) {
                hierarchy.link(child, nodesByName.get(parent));
            }
        }
        hierarchy.close();
        helpers.forEach(hierarchy::remove);
        hierarchy.close();
        return hierarchy;
    }

    /** The group of a line, whose first word tells its kind; names that are none of the ontology are passed over. */
    private Node<OWLClass> node(String line, OWLClass builtIn) {
        List<String> words = Arrays.stream(line.split(" ")).skip(1).toList();
        Set<OWLClass> classes = words.stream().map(names::classOf).filter(Objects::nonNull)
            .collect(Collectors.toCollection(LinkedHashSet::new));
        if (builtIn != null) {
            classes.add(builtIn);
        }
        boolean isHelper = classes.isEmpty();
        if (isHelper) {
            classes.add(factory.getOWLClass(IRI.create(Helpers.PREFIX + words.get(0))));
        }
        Node<OWLClass> node = new OWLClassNode(classes);
        words.forEach(name -> nodesByName.put(name, node));
        if (isHelper) {
            helpers.add(node);
        }
        return node;
    }
}
