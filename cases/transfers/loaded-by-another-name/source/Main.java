// A load of a field in which a path ends may give the object, also where no path leads through this holder: the array
// has the same one.

class F {
    void read() {}
    void close() {}
}

class Holder {
    F f;
}

final class Main {
    public static void main(String[] words) {
        Holder h = new Holder();
        Holder[] holders = {h};
        F a = new F();
        h.f = a;
        holders[0].f.close();
        a.read();
    }
}
