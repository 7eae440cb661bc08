package jezundwa.owlapi;

import java.util.LinkedHashMap;
import java.util.LinkedHashSet;
import java.util.List;
import java.util.Map;
import java.util.Set;
import org.semanticweb.owlapi.model.OWLClass;
import org.semanticweb.owlapi.model.OWLIndividual;
import org.semanticweb.owlapi.model.OWLObjectProperty;

/**
 * A small model of the ontology: an example of what may be.
 *
 * @param size how many elements it has; they are the numbers from 0 on
 * @param members the elements of each class that has any
 * @param edges the pairs of each role that has any
 * @param individuals the element of each individual
 */
public record World(int size, Map<OWLClass, Set<Integer>> members, Map<OWLObjectProperty, Set<Edge>> edges,
        Map<OWLIndividual, Integer> individuals) {
    /** A pair of a role. */
    public record Edge(int from, int to) {}

    /** Reads the lines of a model behind a verdict; names that are none of the ontology are passed over. */
    static World read(List<String> lines, Names names) {
        World world = new World(Integer.parseInt(lines.get(1).split(" ")[1]), new LinkedHashMap<>(),
            new LinkedHashMap<>(), new LinkedHashMap<>());
        lines.subList(2, lines.size()).forEach(line -> world.readLine(line.split(" "), names));
        return world;
    }

    private void readLine(String[] words, Names names) {
        if (words[0].equals("class") && names.classOf(words[1]) != null) {
            Set<Integer> elements = members.computeIfAbsent(names.classOf(words[1]), unknown -> new LinkedHashSet<>());
            for (int at = 2; at < words.length; at++) {
                elements.add(Integer.valueOf(words[at]));
            }
        } else if (words[0].equals("role") && names.roleOf(words[1]) != null) {
            Set<Edge> pairs = edges.computeIfAbsent(names.roleOf(words[1]), unknown -> new LinkedHashSet<>());
            for (int at = 2; at < words.length; at++) {
                String[] pair = words[at].split(",");
                pairs.add(new Edge(Integer.parseInt(pair[0]), Integer.parseInt(pair[1])));
            }
        } else if (words[0].equals("individual") && names.individualOf(words[1]) != null) {
            individuals.put(names.individualOf(words[1]), Integer.valueOf(words[2]));
        }
    }
}
