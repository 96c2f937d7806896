// A local of the caller that is not passed tells the callee nothing: what the callee closes is another object.

class F {
    void read() {}
    void close() {}
}

final class Main {
    static F make() {
        return new F();
    }

    static void close(F f) {
        f.close();
    }

    public static void main(String[] words) {
        F a = make();
        close(make());
        a.read();
    }
}
