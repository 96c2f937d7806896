import java.io.File;
import java.net.URL;
import java.net.URLClassLoader;
import java.nio.file.Files;
import java.nio.file.Path;
import java.util.ArrayList;
import java.util.List;
import java.util.stream.Collectors;
import java.util.stream.Stream;

/**
 * Loads and links each class file of a folder, without running any of it, and prints each fault. Linking verifies a class. The words are the
 * folder, and then jars of classes that it needs. A class that names one that is nowhere is told apart.
 */
public final class Loader {
    private Loader() {
    }

    public static void main(String[] words) throws Exception {
        List<URL> places = new ArrayList<>();
        for (String each : words) {
            places.add(new File(each).toURI().toURL());
        }
        Path folder = Path.of(words[0]);
        List<String> names;
        try (Stream<Path> files = Files.walk(folder)) {
            names = files.map(each -> folder.relativize(each).toString()).filter(each -> each.endsWith(".class")).sorted()
                .map(each -> each.substring(0, each.length() - ".class".length()).replace('/', '.')).collect(Collectors.toList());
        }
        int loaded = 0, missing = 0, faults = 0;
        URLClassLoader loader = new URLClassLoader(places.toArray(new URL[0]), ClassLoader.getPlatformClassLoader());
        for (String name : names) {
            try {
                Class<?> found = Class.forName(name, false, loader);
                int members = found.getDeclaredMethods().length + found.getDeclaredFields().length + found.getDeclaredConstructors().length;
                loaded += members >= 0 ? 1 : 0;
            } catch (NoClassDefFoundError | ClassNotFoundException | TypeNotPresentException fault) {
                missing++;
                System.err.println(name + ": " + fault);
            } catch (LinkageError fault) {
                faults++;
                System.out.println(name + ": " + fault);
            }
        }
        System.out.println("loaded " + loaded + " without what they need " + missing + " faults " + faults);
        System.exit(faults == 0 ? 0 : 1);
    }
}
