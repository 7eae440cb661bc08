package jezundwa.owlapi;

import static org.junit.Assert.assertFalse;
import static org.junit.Assert.assertTrue;

import java.lang.reflect.Method;
import java.util.Arrays;
import java.util.List;
import java.util.stream.Stream;
import org.junit.Test;
import org.semanticweb.owlapi.reasoner.InferenceDepth;

/**
 * Interfaces of version 4.5 of the OWL API have no default methods. That version is not here; but what version 5 has
 * besides is known by its form, and all the rest has to be written out in the classes that implement it.
 */
public class VersionTest {
    private static final List<Class<?>> OWN = List.of(JezundwaReasoner.class, JezundwaReasonerFactory.class,
        JezundwaExplanations.class, JezundwaConfiguration.class, PendingChanges.class, Reductions.class,
        AxiomText.class, FunctionalText.class);

    @Test
    public void nothingIsLeftToDefaultMethods() throws NoSuchMethodException {
        int methods = 0;
        for (Class<?> own : OWN) {
            for (Class<?> implemented : own.getInterfaces()) {
                for (Method method : implemented.getMethods()) {
                    if (isOfBothVersions(method, implemented)) {
                        assertFalse(own.getSimpleName() + " leaves " + method,
                            own.getMethod(method.getName(), method.getParameterTypes()).isDefault());
                        methods++;
                    }
                }
            }
        }
        assertTrue(methods > 100);
    }

    /** Version 5 added streams, a depth in place of a boolean, and calls with the usual boolean left out. */
    private static boolean isOfBothVersions(Method method, Class<?> implemented) {
        List<Class<?>> words = List.of(method.getParameterTypes());
        return method.getReturnType() != Stream.class && !words.contains(Stream.class)
            && !words.contains(InferenceDepth.class) && !method.isVarArgs() && !method.getName().equals("doDefault")
            && Arrays.stream(implemented.getMethods()).noneMatch(other -> other.getName().equals(method.getName())
                && other.getParameterCount() == words.size() + 1
                && other.getParameterTypes()[words.size()] == boolean.class);
    }
}
