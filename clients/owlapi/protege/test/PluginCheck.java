import java.io.IOException;
import java.nio.file.Path;
import java.util.ArrayList;
import java.util.Arrays;
import java.util.Collections;
import java.util.List;
import java.util.Map;
import java.util.ServiceLoader;
import java.util.TreeMap;
import java.util.jar.JarFile;
import java.util.zip.ZipEntry;
import org.osgi.framework.Bundle;
import org.osgi.framework.BundleContext;
import org.osgi.framework.BundleException;
import org.osgi.framework.Constants;
import org.osgi.framework.FrameworkUtil;
import org.osgi.framework.launch.Framework;
import org.osgi.framework.launch.FrameworkFactory;

/**
 * Installs the plug-in in an OSGi framework, beside stand-ins for Protégé's bundles: {@code PluginCheck FOLDER PACKAGES
 * BUNDLE .. PLUGIN}, where FOLDER is an empty one, and PACKAGES are those of the OWL API. It has to be resolved there,
 * each of its classes has to be loaded, and the registry that reads {@code plugin.xml} has to make what stands there.
 */
public final class PluginCheck {
    private static final Map<String, String> EXTENSIONS = new TreeMap<>(Map.of(
        "org.protege.editor.owl.explanation", "org.protege.editor.owl.ui.explanation.ExplanationService",
        "org.protege.editor.owl.inference_reasonerfactory",
        "org.protege.editor.owl.model.inference.AbstractProtegeOWLReasonerInfo"));

    private PluginCheck() {}

    public static void main(String[] words) throws Exception {
        Framework framework = ServiceLoader.load(FrameworkFactory.class).findFirst().orElseThrow().newFramework(Map.of(
            Constants.FRAMEWORK_STORAGE, words[0], Constants.FRAMEWORK_SYSTEMPACKAGES_EXTRA, words[1]));
        framework.start();
        try {
            Bundle plugin = installed(framework.getBundleContext(), List.of(words).subList(2, words.length));
            loadClasses(plugin, words[words.length - 1]);
            for (Map.Entry<String, String> extension : EXTENSIONS.entrySet()) {
                Object made = made(framework.getBundleContext(), extension.getKey());
                Class<?> expected = plugin.loadClass(extension.getValue());
                if (!expected.isInstance(made) || FrameworkUtil.getBundle(made.getClass()) != plugin) {
                    throw new IllegalStateException(made.getClass() + " for " + extension.getKey());
                }
            }
        } finally {
            framework.stop();
            framework.waitForStop(0);
        }
        System.out.println("an OSGi framework resolves the plug-in, and its registry makes both extensions");
    }

    /** Installs all and then starts all; answers the last one. */
    private static Bundle installed(BundleContext context, List<String> jars) throws BundleException {
        List<Bundle> bundles = new ArrayList<>();
        for (String jar : jars) {
            bundles.add(context.installBundle(Path.of(jar).toUri().toString()));
        }
        for (Bundle bundle : bundles) {
            bundle.start();
        }
        return bundles.get(bundles.size() - 1);
    }

    /** Each class is loaded with all that its members name, so that a package that is not imported is missed. */
    private static void loadClasses(Bundle plugin, String jar) throws IOException, ClassNotFoundException {
        try (JarFile file = new JarFile(jar)) {
            for (ZipEntry entry : Collections.list(file.entries())) {
                if (entry.getName().endsWith(".class")) {
                    Class<?> type =
                        plugin.loadClass(entry.getName().replace('/', '.').replaceAll("\\.class$", ""));
                    type.getDeclaredMethods();
                    type.getDeclaredFields();
                }
            }
        }
    }

    /** What the registry, which is Eclipse's as in Protégé, makes of the one extension of a point. */
    private static Object made(BundleContext context, String point) throws ReflectiveOperationException {
        Object registry =
            context.getService(context.getServiceReference("org.eclipse.core.runtime.IExtensionRegistry"));
        Object[] extensions = (Object[]) call(call(registry, "getExtensionPoint", point), "getExtensions");
        if (extensions.length != 1) {
            throw new IllegalStateException(extensions.length + " extensions of " + point);
        }
        for (Object element : (Object[]) call(extensions[0], "getConfigurationElements")) {
            if (call(element, "getName").equals("class")) {
                return call(element, "createExecutableExtension", "value");
            }
        }
        throw new IllegalStateException("no class in the extension of " + point);
    }

    /** Calls a method by its name: the registry's classes are those of its bundle, which this class does not see. */
    private static Object call(Object target, String name, String... words) throws ReflectiveOperationException {
        Class<?>[] types = new Class<?>[words.length];
        Arrays.fill(types, String.class);
        return target.getClass().getMethod(name, types).invoke(target, (Object[]) words);
    }
}
