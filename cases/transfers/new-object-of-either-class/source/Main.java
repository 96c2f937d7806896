// A stub may give new objects of two classes, and these are two places: that the result is of the other one adds no
// path.

class F {
    void read() {}
    void close() {}
}

class G extends F {}

final class Main {
    static F make() {
        return Lib.make();
    }

    public static void main(String[] words) {
        F a = make();
        F[] box = {a};
        F b = make();
        b.close();
        a.read();
    }
}
