package desugar;

import java.io.IOException;
import java.nio.file.Path;
import java.util.Map;
import java.util.Set;
import java.util.stream.Collectors;
import org.objectweb.asm.ClassReader;
import org.objectweb.asm.tree.ClassNode;

/** Reads class files, rewrites what the verifier does not read, and writes them. The words are folders and jars, and then the target folder. */
public final class Main {
    private static final int DONE = 0, CANNOT = 65, SOME_NOT_DONE = 68;

    private Main() {
    }

    public static void main(String[] words) {
        try {
            System.exit(run(words));
        } catch (IOException fault) {
            System.err.println("desugar: " + fault.getMessage() + ": name folders and jars that can be read, and a folder that can be written");
            System.exit(CANNOT);
        }
    }

    private static int run(String[] words) throws IOException {
        Input input = new Input(System.out);
        for (int at = 0; at < words.length - 1; at++) {
            input.take(words[at]);
        }
        if (input.found().isEmpty()) {
            System.err.println("desugar: there is no class file of versions 45 to 65: name folders or jars that have some");
            return CANNOT;
        }
        Work work = new Work();
        input.found().values().forEach(each -> work.program.add(each.node()));
        rewrite(work);
        write(work, input, Path.of(words[words.length - 1]));
        tell(work, input);
        return work.problems.count() == 0 ? DONE : SOME_NOT_DONE;
    }

    private static void rewrite(Work work) throws IOException {
        Reflection reflection = new Reflection();
        for (String name : Reflection.CLASSES) {
            ClassNode each = new ClassNode();
            new ClassReader(Output.resource(name)).accept(each, ClassReader.SKIP_CODE);
            reflection.read(each);
        }
        Rewriter rewriter = new Rewriter(work, reflection);
        Set<String> staying = Survey.staying(work);
        for (ClassNode each : work.program.all()) {
            if (!staying.contains(Program.nest(each))) {
                rewriter.rewrite(each);
            }
        }
        work.made.forEach(rewriter::rewrite);
    }

    private static void write(Work work, Input input, Path target) throws IOException {
        Output output = new Output(target, work);
        for (Input.ClassFile each : input.found().values()) {
            output.write(each);
        }
        for (ClassNode each : work.made) {
            output.write(each);
        }
        output.writeCalled();
    }

    private static void tell(Work work, Input input) {
        Map<String, Integer> counts = work.counts;
        if (!counts.isEmpty()) {
            System.out.println(counts.entrySet().stream().map(each -> each.getKey() + " " + each.getValue()).collect(Collectors.joining(", ")));
        }
        work.problems.print(System.err);
        long rewritten = input.found().keySet().stream().filter(work.changed::contains).count();
        System.out.println("class files " + input.found().size() + " rewritten " + rewritten + " made " + work.made.size() + " left out "
            + input.leftOut() + " places not done " + work.problems.count());
    }
}
