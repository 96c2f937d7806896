// When a local is written, the paths that do not lead to the object leave too: the local gets the object from an array,
// and closes it.

class F {
    void read() {}
    void close() {}
}

final class Main {
    static F make() {
        return new F();
    }

    public static void main(String[] words) {
        F a = make();
        F[] box = {a};
        F b = make();
        b = box[0];
        b.close();
        a.read();
    }
}
