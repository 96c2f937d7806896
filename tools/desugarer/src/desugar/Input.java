package desugar;

import java.io.IOException;
import java.io.PrintStream;
import java.io.UncheckedIOException;
import java.nio.file.Files;
import java.nio.file.Path;
import java.util.Comparator;
import java.util.LinkedHashMap;
import java.util.List;
import java.util.Map;
import java.util.stream.Collectors;
import java.util.stream.Stream;
import java.util.zip.ZipEntry;
import java.util.zip.ZipFile;
import org.objectweb.asm.ClassReader;
import org.objectweb.asm.Opcodes;
import org.objectweb.asm.tree.ClassNode;

/** Reads the class files of folders and jars. What is left out is printed with the reason, a line each, as tools/unpack does. */
final class Input {
    /** The latest version of class files that is read, and the latest that ASM reads: the two do not differ in what stands in a file. */
    private static final int LAST = 65, LAST_OF_READER = Opcodes.V20;
    private static final int FIRST = 45, MAGIC = 0xCAFEBABE, HEAD = 8;

    /** A class file: its path below the folder or in the jar, its bytes, and its class. */
    record ClassFile(String path, byte[] bytes, ClassNode node) {
    }

    private final Map<String, ClassFile> found = new LinkedHashMap<>();
    private final Map<String, String> sources = new LinkedHashMap<>();
    private final PrintStream told;
    private int leftOut;

    Input(PrintStream told) {
        this.told = told;
    }

    /** The class files by the names of their classes. */
    Map<String, ClassFile> found() {
        return found;
    }

    int leftOut() {
        return leftOut;
    }

    /** Takes the class files of a folder or of a jar, in the order of their paths. */
    void take(String place) throws IOException {
        try {
            if (Files.isDirectory(Path.of(place))) {
                takeFolder(place);
            } else {
                takeJar(place);
            }
        } catch (IOException fault) {
            throw new IOException(place + " cannot be read (" + fault.getMessage() + ")", fault);
        }
    }

    private void takeFolder(String place) throws IOException {
        Path folder = Path.of(place);
        List<Path> files;
        try (Stream<Path> walked = Files.walk(folder)) {
            files = walked.filter(each -> each.toString().endsWith(".class") && Files.isRegularFile(each)).sorted().collect(Collectors.toList());
        } catch (UncheckedIOException fault) {
            throw fault.getCause();
        }
        for (Path each : files) {
            take(place, folder.relativize(each).toString(), Files.readAllBytes(each));
        }
    }

    private void takeJar(String place) throws IOException {
        try (ZipFile jar = new ZipFile(place)) {
            List<? extends ZipEntry> entries = jar.stream().filter(each -> each.getName().endsWith(".class") && !each.isDirectory())
                .sorted(Comparator.comparing(ZipEntry::getName)).collect(Collectors.toList());
            for (ZipEntry each : entries) {
                take(place, each.getName(), jar.getInputStream(each).readAllBytes());
            }
        }
    }

    private void take(String place, String path, byte[] bytes) {
        String reason = against(path, bytes);
        ClassNode node = null;
        if (reason == null) {
            try {
                node = parse(bytes);
            } catch (RuntimeException fault) {
                reason = "it cannot be read: " + fault;
            }
        }
        if (node != null && sources.containsKey(node.name)) {
            reason = "class " + node.name + " was taken from " + sources.get(node.name);
        }
        if (reason != null) {
            leftOut++;
            told.println("left out " + place + " " + path + ": " + reason);
            return;
        }
        sources.put(node.name, place);
        found.put(node.name, new ClassFile(path, bytes, node));
    }

    /** Why a class file is left out, or null. */
    private static String against(String path, byte[] bytes) {
        List<String> parts = List.of(path.split("/"));
        if (parts.get(parts.size() - 1).equals("module-info.class")) {
            return "it describes a module";
        }
        if (parts.get(0).equals("META-INF")) {
            return "it stands under META-INF";
        }
        if (path.contains("\\") || parts.contains("") || parts.contains(".") || parts.contains("..")) {
            return "its path leads out of the folder or is none";
        }
        if (bytes.length < HEAD || !isClassFile(bytes)) {
            return "it is no class file";
        }
        int version = number(bytes, 6);
        return version < FIRST || version > LAST ? "it is of version " + version + ", and " + FIRST + " to " + LAST + " are read" : null;
    }

    private static boolean isClassFile(byte[] bytes) {
        return (number(bytes, 0) << 16 | number(bytes, 2)) == MAGIC;
    }

    private static int number(byte[] bytes, int at) {
        return (bytes[at] & 0xFF) << 8 | bytes[at + 1] & 0xFF;
    }

    private static ClassNode parse(byte[] bytes) {
        byte[] read = bytes.clone();
        if (number(read, 6) > LAST_OF_READER) {
            read[7] = (byte) LAST_OF_READER;
        }
        ClassNode node = new ClassNode();
        new ClassReader(read).accept(node, 0);
        return node;
    }
}
