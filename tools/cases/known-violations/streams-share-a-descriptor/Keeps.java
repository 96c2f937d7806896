// Two streams share a file descriptor: closing one, the library closes the other.
import java.io.*;
public final class Keeps {
    public static void main(String[] args) throws IOException {
        FileOutputStream one = new FileOutputStream("/tmp/red-f.txt");
        FileOutputStream two = new FileOutputStream(one.getFD());
        two.close();
    }
}
