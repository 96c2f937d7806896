// Process.getInputStream gives the same stream each time.
import java.io.*;

public final class Keeps {
    public static void main(String[] args) throws IOException {
        Process process = Runtime.getRuntime().exec("echo text");
        System.out.println(process.getInputStream().read());
        process.getInputStream().close();
    }
}
