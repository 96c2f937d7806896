package shop;

import java.io.FileReader;
import java.io.IOException;
import java.io.Reader;

/** Code that the verifier refuses, around a reader that is used in order. */
public final class Jobs {
    private Jobs() {
    }

    static void inBackground(Runnable job) {
        new Thread(job).start();
    }

    static Object made(String name) throws ReflectiveOperationException {
        return Class.forName(name).newInstance();
    }

    public static void main(String[] args) throws IOException, ReflectiveOperationException {
        Reader reader = new FileReader(args[0]);
        inBackground(() -> System.out.println("done"));
        int[] counts = new int[] {1, 2}.clone();
        System.out.println(made(args[1]).hashCode() + counts[0] + reader.read());
        reader.close();
    }
}
