// Process.getInputStream gives the same stream each time.
import java.io.*;

public final class Breaks {
    public static void main(String[] args) throws IOException {
        Process process = Runtime.getRuntime().exec("echo text");
        process.getInputStream().close();
        System.out.println(process.getInputStream().read());  // errs here
    }
}
