// A store into an array tells that another cell may hold the object: it is closed there.

class F {
    void read() {}
    void close() {}
}

final class Main {
    public static void main(String[] words) {
        F a = new F();
        F[] box = new F[1];
        box[0] = a;
        box[0].close();
        a.read();
    }
}
