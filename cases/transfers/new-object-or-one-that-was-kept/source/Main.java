// Only a new object of the place is known not to be an older one: a result that the stub had kept may be the older one.

class F {
    void read() {}
    void close() {}
}

final class Main {
    static F make() {
        return Lib.make();
    }

    public static void main(String[] words) {
        F a = make();
        Lib.keep(a);
        F b = make();
        b.close();
        a.read();
    }
}
