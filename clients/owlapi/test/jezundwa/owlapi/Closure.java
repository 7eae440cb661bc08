package jezundwa.owlapi;

import java.util.Collection;
import java.util.HashMap;
import java.util.HashSet;
import java.util.List;
import java.util.Map;
import java.util.Set;
import java.util.stream.Collectors;

/** What is told to be below what, with all that follows from it by chains. */
final class Closure<E> {
    private final Map<E, Set<E>> above = new HashMap<>();

    void add(E member) {
        above.computeIfAbsent(member, unknown -> new HashSet<>(Set.of(member)));
    }

    /** Whatever is below the one is below all that the other is below. */
    void addBelow(E below, E over) {
        add(below);
        add(over);
        Set<E> more = Set.copyOf(above.get(over));
        above.values().stream().filter(all -> all.contains(below)).forEach(all -> all.addAll(more));
    }

    void addEqual(Collection<? extends E> members) {
        List<E> list = List.copyOf(members);
        for (int at = 0; at < list.size(); at++) {
            addBelow(list.get(at), list.get((at + 1) % list.size()));
        }
    }

    Set<E> members() {
        return above.keySet();
    }

    /** A member that is named nowhere is below itself alone. */
    boolean isBelow(E below, E over) {
        return below.equals(over) || above.getOrDefault(below, Set.of()).contains(over);
    }

    boolean isStrictlyBelow(E below, E over) {
        return isBelow(below, over) && !isBelow(over, below);
    }

    Set<E> equal(E member) {
        return members().stream().filter(other -> isBelow(member, other) && isBelow(other, member))
            .collect(Collectors.toSet());
    }

    /** The groups of equal members above one. */
    Set<Set<E>> over(E member, boolean isDirect) {
        return members().stream().filter(other -> isStrictlyBelow(member, other))
            .filter(other -> !isDirect || members().stream()
                .noneMatch(between -> isStrictlyBelow(member, between) && isStrictlyBelow(between, other)))
            .map(this::equal).collect(Collectors.toSet());
    }

    /** The groups of equal members below one. */
    Set<Set<E>> under(E member, boolean isDirect) {
        return members().stream().filter(other -> isStrictlyBelow(other, member))
            .filter(other -> !isDirect || members().stream()
                .noneMatch(between -> isStrictlyBelow(other, between) && isStrictlyBelow(between, member)))
            .map(this::equal).collect(Collectors.toSet());
    }
}
