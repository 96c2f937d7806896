// An anonymous class closes what it took from around it.
import java.io.*;

public final class Breaks {
    interface Task {
        void run() throws IOException;
    }

    static String path() throws IOException {
        File made = File.createTempFile("known", ".tmp");
        made.deleteOnExit();
        return made.getPath();
    }

    static Task closing(final InputStream file) {
        return new Task() {
            public void run() throws IOException { file.close(); }
        };
    }

    public static void main(String[] args) throws IOException {
        FileInputStream file = new FileInputStream(path());
        Task task = closing(file);
        task.run();
        System.out.println(file.read());  // errs here
    }
}
