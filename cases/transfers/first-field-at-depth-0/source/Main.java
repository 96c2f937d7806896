// Without fields in paths a store into a field only tells that another cell may hold the object, and it is closed
// there.

class F {
    void read() {}
    void close() {}
}

class Holder {
    F f;
}

final class Main {
    public static void main(String[] words) {
        Holder h = new Holder();
        F a = new F();
        h.f = a;
        h.f.close();
        a.read();
    }
}
