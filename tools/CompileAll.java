import java.io.File;
import java.util.List;
import javax.tools.JavaCompiler;
import javax.tools.StandardJavaFileManager;
import javax.tools.ToolProvider;

/** Compiles Java files for Java 8, each by itself: the words are files in turn with the folders that their class files go to. */
public final class CompileAll {
    private CompileAll() {
    }

    public static void main(String[] words) throws Exception {
        JavaCompiler compiler = ToolProvider.getSystemJavaCompiler();
        boolean compiled = true;
        for (int at = 0; at < words.length; at += 2) {
            new File(words[at + 1]).mkdirs();
            List<String> options = List.of("--release", "8", "-nowarn", "-Xlint:none", "-proc:none", "-g:source,lines", "-d", words[at + 1]);
            try (StandardJavaFileManager files = compiler.getStandardFileManager(null, null, null)) {
                compiled &= compiler.getTask(null, files, null, options, null, files.getJavaFileObjects(words[at])).call();
            }
        }
        System.exit(compiled ? 0 : 1);
    }
}
