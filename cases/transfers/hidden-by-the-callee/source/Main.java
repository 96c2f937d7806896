// That another cell may hold the object is known to the caller too: the callee stored it into an array.

class F {
    void read() {}
    void close() {}
}

final class Main {
    static void put(F[] box, F f) {
        box[0] = f;
    }

    public static void main(String[] words) {
        F a = new F();
        F[] box = new F[1];
        put(box, a);
        box[0].close();
        a.read();
    }
}
