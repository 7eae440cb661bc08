package jezundwa.owlapi;

import java.util.HashSet;
import java.util.Set;
import java.util.function.IntPredicate;
import java.util.stream.Collectors;
import java.util.stream.IntStream;
import org.semanticweb.owlapi.model.*;

/** Which elements of a finite interpretation are in a class expression, by the direct semantics of OWL 2. */
final class Extensions implements OWLClassExpressionVisitorEx<Set<Integer>> {
    private final World world;

    Extensions(World world) {
        this.world = world;
    }

    Set<Integer> of(OWLClassExpression type) {
        return type.accept(this);
    }

    Set<Integer> all() {
        return where(element -> true);
    }

    /** The element of an individual; the program gives no line to the element 0. */
    int of(OWLIndividual individual) {
        return world.individuals().getOrDefault(individual, 0);
    }

    boolean isEdge(OWLObjectPropertyExpression role, int from, int to) {
        if (role instanceof OWLObjectInverseOf inverse) {
            return isEdge(inverse.getInverse(), to, from);
        }
        if (role.isOWLTopObjectProperty()) {
            return true;
        }
        return world.edges().getOrDefault(role.asOWLObjectProperty(), Set.of()).contains(new World.Edge(from, to));
    }

    /** All pairs of a role. */
    Set<World.Edge> edges(OWLObjectPropertyExpression role) {
        return all().stream().flatMap(from -> ends(role, from).stream().map(to -> new World.Edge(from, to)))
            .collect(Collectors.toSet());
    }

    /** The elements to which edges of a role lead from an element. */
    Set<Integer> ends(OWLObjectPropertyExpression role, int from) {
        return where(to -> isEdge(role, from, to));
    }

    private Set<Integer> where(IntPredicate isIn) {
        return IntStream.range(0, world.size()).filter(isIn).boxed().collect(Collectors.toSet());
    }

    /** How many edges of a counting class lead from an element into its filler. */
    private long count(OWLObjectCardinalityRestriction counted, int from) {
        Set<Integer> filler = of(counted.getFiller());
        return ends(counted.getProperty(), from).stream().filter(filler::contains).count();
    }

    @Override
    public Set<Integer> visit(OWLClass type) {
        if (type.isOWLThing()) {
            return all();
        }
        return world.members().getOrDefault(type, Set.of());
    }

    @Override
    public Set<Integer> visit(OWLObjectIntersectionOf type) {
        Set<Integer> left = all();
        type.getOperands().forEach(part -> left.retainAll(of(part)));
        return left;
    }

    @Override
    public Set<Integer> visit(OWLObjectUnionOf type) {
        Set<Integer> found = new HashSet<>();
        type.getOperands().forEach(part -> found.addAll(of(part)));
        return found;
    }

    @Override
    public Set<Integer> visit(OWLObjectComplementOf type) {
        Set<Integer> left = all();
        left.removeAll(of(type.getOperand()));
        return left;
    }

    @Override
    public Set<Integer> visit(OWLObjectSomeValuesFrom type) {
        Set<Integer> filler = of(type.getFiller());
        return where(from -> ends(type.getProperty(), from).stream().anyMatch(filler::contains));
    }

    @Override
    public Set<Integer> visit(OWLObjectAllValuesFrom type) {
        Set<Integer> filler = of(type.getFiller());
        return where(from -> filler.containsAll(ends(type.getProperty(), from)));
    }

    @Override
    public Set<Integer> visit(OWLObjectMinCardinality type) {
        return where(from -> count(type, from) >= type.getCardinality());
    }

    @Override
    public Set<Integer> visit(OWLObjectMaxCardinality type) {
        return where(from -> count(type, from) <= type.getCardinality());
    }

    @Override
    public Set<Integer> visit(OWLObjectExactCardinality type) {
        return where(from -> count(type, from) == type.getCardinality());
    }

    @Override
    public Set<Integer> visit(OWLObjectHasValue type) {
        return where(from -> isEdge(type.getProperty(), from, of(type.getFiller())));
    }

    @Override
    public Set<Integer> visit(OWLObjectHasSelf type) {
        return where(element -> isEdge(type.getProperty(), element, element));
    }

    @Override
    public Set<Integer> visit(OWLObjectOneOf type) {
        return type.getIndividuals().stream().map(this::of).collect(Collectors.toSet());
    }

    @Override
    public <T> Set<Integer> doDefault(T data) {
        throw new UnsupportedOperationException(data.toString());
    }
}
