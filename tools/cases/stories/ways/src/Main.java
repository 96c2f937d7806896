import java.io.FileInputStream;
import java.io.IOException;
import java.io.InputStream;

public final class Main {
    private static InputStream shared;
    private final InputStream own;

    Main(InputStream own) {
        this.own = own;
    }

    interface Closer {
        default void shut(InputStream in) throws IOException {
            in.close();
        }
    }

    static final class Quiet implements Closer {
    }

    static int deep(InputStream in, int n) throws IOException {
        if (n == 0) {
            in.close();
            return 0;
        }
        return deep(in, n - 1) + 1;
    }

    static int locked(InputStream in) throws IOException {
        synchronized (Main.class) {
            return in.read();
        }
    }

    static void first(String name) throws IOException {
        InputStream in = new FileInputStream(name);
        try {
            deep(in, 3);
        } finally {
            System.out.println("done");
        }
        locked(in);
    }

    static void second(String name) throws IOException {
        shared = new FileInputStream(name);
        new Quiet().shut(shared);
        Main main = new Main(shared);
        main.use();
    }

    int use() throws IOException {
        return own.read();
    }

    static void third(String[] names) throws IOException {
        InputStream[] all = new InputStream[2];
        for (int i = 0; i < 2; i++) {
            all[i] = new FileInputStream(names[i]);
        }
        all[0].close();
        all[1].read();
    }

    static int fourth(String name, boolean early) throws IOException {
        InputStream in = new FileInputStream(name);
        int value;
        if (early) {
            value = in.read();
            in.close();
        } else {
            in.close();
            value = 0;
        }
        switch (value) {
            case 1:
                return 7;
            case 2:
                return in.read();
            default:
                return 0;
        }
    }

    static void fifth(String name) throws IOException {
        InputStream in = new FileInputStream(name);
        try {
            try {
                throw new IllegalStateException("x");
            } catch (IllegalStateException e) {
                in.close();
                throw e;
            } finally {
                in.read();
            }
        } catch (RuntimeException e) {
            System.out.println("again");
        }
    }

    public static void main(String[] args) throws IOException {
        first(args[0]);
        second(args[0]);
        third(args);
        fourth(args[0], args.length > 1);
        fifth(args[0]);
    }
}
