package desugar;

import java.io.IOException;
import java.io.InputStream;
import java.nio.file.Files;
import java.nio.file.Path;
import java.util.jar.JarEntry;
import java.util.jar.JarOutputStream;
import org.objectweb.asm.ClassWriter;
import org.objectweb.asm.MethodTooLargeException;
import org.objectweb.asm.ClassTooLargeException;
import org.objectweb.asm.tree.ClassNode;

/** Writes the class files into the folder: those that were not changed byte for byte as they were. */
final class Output {
    /** The jar of the classes that are for a JVM alone; the verifier has models of them, so that no class file of theirs may stand in the folder. */
    private static final String RUN_JAR = "typestate-run.jar";
    private final Path folder;
    private final Work work;

    Output(Path folder, Work work) {
        this.folder = folder;
        this.work = work;
    }

    private void write(String path, byte[] bytes) throws IOException {
        Path target = folder.resolve(path);
        Files.createDirectories(target.getParent());
        Files.write(target, bytes);
    }

    /** Writes a class that was read; one that would be too large as it was, which is told. */
    void write(Input.ClassFile each) throws IOException {
        byte[] bytes = work.changed.contains(each.node().name) ? bytes(each.node()) : each.bytes();
        write(each.path(), bytes == null ? each.bytes() : bytes);
    }

    /** Writes a class that was made. */
    void write(ClassNode made) throws IOException {
        byte[] bytes = bytes(made);
        if (bytes != null) {
            write(made.name + ".class", bytes);
        }
    }

    /** The bytes of a class, or null where it cannot be written, as where a method or the whole gets too large; that is told. */
    private byte[] bytes(ClassNode node) {
        Rewriter.downgrade(node);
        ClassWriter writer = new ClassWriter(ClassWriter.COMPUTE_MAXS);
        try {
            node.accept(writer);
            return writer.toByteArray();
        } catch (MethodTooLargeException | ClassTooLargeException | IllegalArgumentException fault) {
            String what = "its rewritten class cannot be written (" + fault + "), so that it is as it was, and others call what it lacks";
            work.problems.add(node.name, what, "do not run it with the others of this folder; split its methods, and rewrite all anew");
            return null;
        }
    }

    /** Writes the classes that rewritten code calls. */
    void writeCalled() throws IOException {
        if (work.usesCopy && work.program.own(Clones.COPY) == null) {
            write(Clones.COPY + ".class", resource(Clones.COPY));
        }
        if (work.usesReflect) {
            try (JarOutputStream jar = new JarOutputStream(Files.newOutputStream(folder.resolve(RUN_JAR)))) {
                for (String name : Reflection.CLASSES) {
                    jar.putNextEntry(new JarEntry(name + ".class"));
                    jar.write(resource(name));
                    jar.closeEntry();
                }
            }
        }
    }

    /** A class file of those that come with this program. */
    static byte[] resource(String name) throws IOException {
        try (InputStream file = ClassLoader.getSystemResourceAsStream(name + ".class")) {
            return file.readAllBytes();
        }
    }
}
